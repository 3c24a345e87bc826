/* peak FILE PROGRAM WORD..: runs the program, and writes into the file how much memory it held at most, in KiB. A process is
   told to have held what its parent held when it was made, so a small parent is wanted. */
#include <stdio.h>
#include <sys/resource.h>
#include <sys/wait.h>
#include <unistd.h>

int main(int count, char **words) {
    int status;
    struct rusage used;
    pid_t child = count > 2 ? vfork() : -1;
    if (child == 0) {
        execv(words[2], words + 2);
        _exit(127);
    }
    if (child < 0 || wait4(child, &status, 0, &used) != child)
        return 126;
    FILE *file = fopen(words[1], "w");
    if (!file || fprintf(file, "%ld\n", used.ru_maxrss) < 0 || fclose(file) != 0)
        return 126;
    return WIFEXITED(status) ? WEXITSTATUS(status) : 125;
}
