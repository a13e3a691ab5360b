/* Put before the gateway by LD_PRELOAD: writes to the file DISK_TELL what it does with the file whose path is DISK_OF, with folders and with
   sockets, a line each, and goes wrong where it is asked to. The lines are
     write N SIZE, sync SIZE, cut SIZE   N bytes were written, all was synced, it was cut; SIZE is how long it is then
     refused                             a sync was refused
     folder                              a folder was synced
     renamed                             another file came in its place
     listen, send N                      at a socket
   DISK_REFUSE is the number of the sync of it that is refused. At the write of it whose number is DISK_DIE the process is killed: when all bytes are
   written, or, where DISK_FRONT is set, only so many of them. */
typedef __SIZE_TYPE__ size_t;
typedef long ssize_t;

extern char *getenv(const char *);
extern long strtol(const char *, char **, int);
extern int strcmp(const char *, const char *);
extern int dprintf(int, const char *, ...);
extern long syscall(long, ...);
extern int *__errno_location(void);

enum { EIO = 5, SIGKILL = 9, SEEK_END = 2, O_WRITES = 3, O_TELL = 02101 };
enum { SYS_write = 1, SYS_open = 2, SYS_close = 3, SYS_lseek = 8, SYS_getpid = 39, SYS_sendto = 44, SYS_listen = 50, SYS_kill = 62 };
enum { SYS_fsync = 74, SYS_fdatasync = 75, SYS_ftruncate = 77, SYS_rename = 82, SYS_getdents64 = 217 };

static int tell = -1, of = -1;
static long syncs, writes;

static long number(const char *name) {
  const char *text = getenv(name);
  return text ? strtol(text, 0, 10) : -1;
}

__attribute__((constructor)) static void begin(void) {
  const char *path = getenv("DISK_TELL");
  if (path)
    tell = (int)syscall(SYS_open, path, O_TELL, 0600);
}

static long size(void) { return syscall(SYS_lseek, of, 0L, SEEK_END); }

int open(const char *path, int flags, ...) {
  __builtin_va_list more;
  __builtin_va_start(more, flags);
  int mode = __builtin_va_arg(more, int), file = (int)syscall(SYS_open, path, flags, mode);
  __builtin_va_end(more);
  const char *journal = getenv("DISK_OF");
  if (file >= 0 && journal && !strcmp(path, journal) && flags & O_WRITES)
    of = file;
  return file;
}

int close(int file) {
  if (file == of)
    of = -1;
  return (int)syscall(SYS_close, file);
}

ssize_t write(int file, const void *bytes, size_t count) {
  if (file != of)
    return syscall(SYS_write, file, bytes, count);
  long front = number("DISK_FRONT"), dies = ++writes == number("DISK_DIE");
  if (dies && front >= 0 && (size_t)front < count)
    count = (size_t)front;
  ssize_t wrote = syscall(SYS_write, file, bytes, count);
  dprintf(tell, "write %ld %ld\n", wrote, size());
  if (dies)
    syscall(SYS_kill, syscall(SYS_getpid), SIGKILL);
  return wrote;
}

static int synced(int file, long how) {
  char entry[1024];
  if (file == of && ++syncs == number("DISK_REFUSE")) {
    dprintf(tell, "refused\n");
    *__errno_location() = EIO;
    return -1;
  }
  int result = (int)syscall(how, file);
  if (!result && file == of)
    dprintf(tell, "sync %ld\n", size());
  else if (!result && syscall(SYS_getdents64, file, entry, sizeof entry) >= 0)
    dprintf(tell, "folder\n");
  return result;
}

int fdatasync(int file) { return synced(file, SYS_fdatasync); }

int fsync(int file) { return synced(file, SYS_fsync); }

int ftruncate(int file, long length) {
  int result = (int)syscall(SYS_ftruncate, file, length);
  if (file == of)
    dprintf(tell, "cut %ld\n", size());
  return result;
}

int rename(const char *from, const char *to) {
  const char *journal = getenv("DISK_OF");
  if (journal && !strcmp(to, journal))
    dprintf(tell, "renamed\n");
  return (int)syscall(SYS_rename, from, to);
}

int listen(int socket, int most) {
  dprintf(tell, "listen\n");
  return (int)syscall(SYS_listen, socket, most);
}

ssize_t send(int socket, const void *bytes, size_t count, int flags) {
  ssize_t sent = syscall(SYS_sendto, socket, bytes, count, flags, (void *)0, 0L);
  dprintf(tell, "send %ld\n", sent);
  return sent;
}
