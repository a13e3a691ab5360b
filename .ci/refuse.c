/* Put before a program by LD_PRELOAD: refuses the request for more memory whose number REFUSE gives, and no other one; none
   where it is 0. At the end it writes the number of requests to the file descriptor REFUSE_TELL. Where REFUSE_OPTIONS is
   set it refuses each option of a TCP connection, and writes the number of those. It gives the random bytes too. */
typedef __SIZE_TYPE__ size_t;

extern void *__libc_malloc(size_t);
extern void *__libc_realloc(void *, size_t);
extern void *__libc_calloc(size_t, size_t);
extern size_t malloc_usable_size(void *);
extern char *getenv(const char *);
extern long strtol(const char *, char **, int);
extern int dprintf(int, const char *, ...);
extern long syscall(long, ...);
extern int *__errno_location(void);

enum { EINVAL = 22, IPPROTO_TCP = 6, SYS_setsockopt = 54 };

static long asked;
static long at = -1;
static long options;

static int is_refused(void) {
  if (at < 0) {
    const char *number = getenv("REFUSE");
    at = number ? strtol(number, 0, 10) : 0;
  }
  asked++;
  return asked == at;
}

void *malloc(size_t size) { return is_refused() ? 0 : __libc_malloc(size); }

/* A block that is to have no more than it has asks for nothing: a row gives back what it was given too much. */
void *realloc(void *block, size_t size) {
  if (block && size <= malloc_usable_size(block))
    return __libc_realloc(block, size);
  return is_refused() ? 0 : __libc_realloc(block, size);
}

void *calloc(size_t count, size_t size) { return is_refused() ? 0 : __libc_calloc(count, size); }

int setsockopt(int socket, int level, int name, const void *value, unsigned length) {
  if (level != IPPROTO_TCP || !getenv("REFUSE_OPTIONS"))
    return (int)syscall(SYS_setsockopt, socket, level, name, value, length);
  options++;
  *__errno_location() = EINVAL;
  return -1;
}

/* The same bytes in each run, so that it asks for memory equally often; none where REFUSE_BYTES is set. */
int getentropy(void *bytes, size_t size) {
  if (getenv("REFUSE_BYTES"))
    return -1;
  for (size_t place = 0; place < size; place++)
    ((unsigned char *)bytes)[place] = (unsigned char)place;
  return 0;
}

__attribute__((destructor)) static void tell(void) {
  const char *descriptor = getenv("REFUSE_TELL");
  if (descriptor)
    dprintf((int)strtol(descriptor, 0, 10), "%ld\n", getenv("REFUSE_OPTIONS") ? options : asked);
}
