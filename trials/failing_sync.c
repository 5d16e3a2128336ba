// A system whose syncs fail where they are told to, and that notes which changes of names a crash may still undo. The trial
// `syncs` builds it, and has it loaded before the program.
//
// FAIL_SYNC=N: the Nth call of fsync or fdatasync fails; with FAIL_ALL each later one too.
// LOOSE=FOLDER: each rename and each removal is noted there, as K with its words a line each, beside K.old, the file that it
// replaced or removed, until a sync of its folder is done.
#define _GNU_SOURCE
#include <dlfcn.h>
#include <errno.h>
#include <limits.h>
#include <stdio.h>
#include <stdlib.h>
#include <string.h>
#include <sys/stat.h>
#include <unistd.h>

#define MOST 64

static void note_name(char *into, int number, const char *end) {
  snprintf(into, PATH_MAX, "%s/%d%s", getenv("LOOSE"), number, end);
}

// The file of a name before it changes: its number, or -1 where none are noted.
static int keep_old(const char *path) {
  char note[PATH_MAX], old[PATH_MAX];
  int number = 0;
  if (!getenv("LOOSE")) return -1;
  for (note_name(note, 0, ""); number < MOST && access(note, F_OK) == 0; note_name(note, number, "")) number++;
  note_name(old, number, ".old");
  unlinkat(-100, old, 0);
  if (link(path, old)) errno = 0;
  return number;
}

static void note(int number, const char *from, const char *to) {
  char name[PATH_MAX];
  if (number < 0) return;
  note_name(name, number, "");
  FILE *file = fopen(name, "w");
  fprintf(file, "%s\n%s\n", from, to);
  fclose(file);
}

// Names of this folder are stored: those below `paxos`, or the others.
static void store(int below) {
  for (int number = 0; number < MOST; number++) {
    char name[PATH_MAX], line[PATH_MAX];
    note_name(name, number, "");
    FILE *file = fopen(name, "r");
    if (!file) continue;
    if (fgets(line, sizeof line, file) && below == (strstr(line, "paxos/") != NULL)) unlinkat(-100, name, 0);
    fclose(file);
  }
}

static int fails(void) {
  static int made;
  const char *first = getenv("FAIL_SYNC");
  made++;
  return first && (made == atoi(first) || (getenv("FAIL_ALL") && made > atoi(first)));
}

static int sync_by(const char *call, int file) {
  struct stat found;
  char link[64], path[PATH_MAX] = "";
  if (fails()) {
    errno = EIO;
    return -1;
  }
  int (*real)(int) = (int (*)(int))dlsym(RTLD_NEXT, call);
  int status = real(file);
  if (status == 0 && getenv("LOOSE") && fstat(file, &found) == 0 && S_ISDIR(found.st_mode)) {
    snprintf(link, sizeof link, "/proc/self/fd/%d", file);
    if (readlink(link, path, sizeof path - 1) > 0) store(strstr(path, "/paxos") != NULL);
  }
  return status;
}

int fsync(int file) { return sync_by("fsync", file); }

int fdatasync(int file) { return sync_by("fdatasync", file); }

int rename(const char *from, const char *to) {
  int (*real)(const char *, const char *) = (int (*)(const char *, const char *))dlsym(RTLD_NEXT, "rename");
  int number = keep_old(to), status = real(from, to);
  if (status == 0) note(number, from, to);
  return status;
}

int unlink(const char *path) {
  int (*real)(const char *) = (int (*)(const char *))dlsym(RTLD_NEXT, "unlink");
  int number = keep_old(path), status = real(path);
  if (status == 0) note(number, path, "");
  return status;
}
