"""The built program where no thread can be made."""
import os

from support import library_of, read

# Refuses each thread, and adds a byte to the file REFUSED for it.
REFUSING = r"""
#include <errno.h>
#include <fcntl.h>
#include <pthread.h>
#include <stdlib.h>
#include <unistd.h>
int pthread_create(pthread_t *thread, const pthread_attr_t *with, void *(*run)(void *), void *what) {
  int file = open(getenv("REFUSED"), O_WRONLY | O_CREAT | O_APPEND, 0600);
  if (file < 0 || write(file, "x", 1) != 1) abort();
  close(file);
  (void)thread; (void)with; (void)run; (void)what;
  return EAGAIN;
}
"""


def without_threads(program, folder):
    """The path of a script that runs the program so, and a function that tells how many threads were refused since it was
    last asked."""
    library, refused, script = library_of(REFUSING, folder), os.path.join(folder, "refused"), os.path.join(folder, "program")
    with open(script, "w") as file:
        file.write(f"#!/bin/sh\nREFUSED='{refused}' LD_PRELOAD='{library}' exec '{program}' \"$@\"\n")
    os.chmod(script, 0o700)

    def count():
        count = len(read(refused)) if os.path.exists(refused) else 0
        open(refused, "wb").close()
        return count

    return script, count
