#define _GNU_SOURCE
#include "running.h"

#include "making.h"

#include <errno.h>
#include <spawn.h>
#include <stdio.h>
#include <stdlib.h>
#include <sys/mman.h>
#include <sys/wait.h>
#include <unistd.h>

static void stop_if(int failed, const char *what)
{
    if (failed) {
        perror(what);
        exit(2);
    }
}

static int file_with(const uint8_t *bytes, size_t size)
{
    int file = memfd_create("trace", 0);
    stop_if(file < 0, "memfd_create");
    stop_if(write(file, bytes, size) != (ssize_t)size, "write");
    stop_if(lseek(file, 0, SEEK_SET) != 0, "lseek");
    return file;
}

/* Starts the program. (Not by fork, which would copy the sanitizers' memory each time.) */
static pid_t start(const char *program, int input, int output)
{
    char *const words[] = {"sh", "-c", (char *)program, NULL};
    posix_spawn_file_actions_t files;
    pid_t child;
    posix_spawn_file_actions_init(&files);
    posix_spawn_file_actions_adddup2(&files, input, 0);
    posix_spawn_file_actions_adddup2(&files, output, 1);
    errno = posix_spawn(&child, "/bin/sh", &files, NULL, words, environ);
    stop_if(errno != 0, "posix_spawn");
    posix_spawn_file_actions_destroy(&files);
    return child;
}

struct text run(const char *program)
{
    int input = file_with(trace, length), output = file_with(NULL, 0), status = 0;
    pid_t child = start(program, input, output);
    stop_if(waitpid(child, &status, 0) != child, "waitpid");
    struct text text = {NULL, (size_t)lseek(output, 0, SEEK_END), 0};
    text.bytes = malloc(text.length + 1);
    stop_if(pread(output, text.bytes, text.length, 0) != (ssize_t)text.length, "pread");
    close(input);
    close(output);
    if (!WIFEXITED(status) || WEXITSTATUS(status) != 0) {
        printf("FAILED: the program ended with status %d\n", status);
        text.length = 0;
    }
    return text;
}
