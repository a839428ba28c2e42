/*
 * interrupt SIGNAL MICROSECONDS COMMAND WORD..: runs the command, which ignores and holds no signal at its start, and
 * sends it the signal (a number, or 0 for none) so long after. The exit status is the command's, or 128 and the number
 * of the signal that ended it.
 */
#include <signal.h>
#include <stdio.h>
#include <stdlib.h>
#include <sys/types.h>
#include <sys/wait.h>
#include <time.h>
#include <unistd.h>

static const int SIGNALS[] = {SIGHUP, SIGINT, SIGPIPE, SIGQUIT, SIGTERM, SIGUSR1};

static int abandon(const char *reason)
{
    fprintf(stderr, "interrupt: %s\n", reason);
    return 98;
}

static void run(char **words)
{
    sigset_t none;

    for (size_t i = 0; i < sizeof SIGNALS / sizeof SIGNALS[0]; i++)
        signal(SIGNALS[i], SIG_DFL);
    sigemptyset(&none);
    sigprocmask(SIG_SETMASK, &none, NULL);
    execv(words[0], words);
    _exit(abandon("the command cannot be run"));
}

static void rest(long microseconds)
{
    struct timespec time = {.tv_sec = microseconds / 1000000, .tv_nsec = microseconds % 1000000 * 1000};

    nanosleep(&time, NULL);
}

int main(int count, char **words)
{
    pid_t process;
    int status;

    if (count < 4)
        return abandon("SIGNAL MICROSECONDS COMMAND WORD..");
    process = fork();
    if (process < 0)
        return abandon("no process can be made");
    if (process == 0)
        run(words + 3);
    rest(atol(words[2]));
    if (kill(process, atoi(words[1])) != 0 || waitpid(process, &status, 0) != process)
        return abandon("the command is gone");
    return WIFSIGNALED(status) ? 128 + WTERMSIG(status) : WEXITSTATUS(status);
}
