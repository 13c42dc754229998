#define _GNU_SOURCE
/* What serving files over standard input and output costs by itself: GET of a regular file, of ranges or of the page of a
 * directory, and 304 by an equal tag; the fields of a request are read, and nothing is checked. One buffer of 16 KiB; the
 * head and the first bytes leave in one write. It is a yardstick and no server.
 *   floor ROOT [look] [clear] [joined]
 * With `look` a path is looked at before it is opened; with `clear` the path of each of three calls is cleared and copied in
 * 4 KiB of its own; with `joined` the answers to requests that came together leave in one write. davserve does all three. */
#include <dirent.h>
#include <fcntl.h>
#include <stdbool.h>
#include <stdio.h>
#include <stdlib.h>
#include <string.h>
#include <strings.h>
#include <sys/stat.h>
#include <time.h>
#include <unistd.h>

enum { PIECE = 16384, HEAD = 1024, INPUT = 65536, PATH = 4096 };

static bool looks, clears, joins;

static void write_all(const char *bytes, size_t count) {
  while (count > 0) {
    ssize_t written = write(1, bytes, count);
    if (written <= 0) exit(4);
    bytes += written;
    count -= (size_t)written;
  }
}

/* Answers that wait for one write. */
static char answers[INPUT + HEAD + PIECE];
static size_t answered;

static void leave(void) {
  write_all(answers, answered), answered = 0;
}

/* A path as the toolchain hands it to a call: cleared, and copied. */
static const char *handed(const char *path) {
  static char cleared[PATH], copied[PATH];
  if (!clears) return path;
  memset(cleared, 0, PATH);
  strcpy(cleared, path);
  __asm__ volatile("" : : "r"(cleared) : "memory");
  memcpy(copied, cleared, PATH);
  __asm__ volatile("" : : "r"(copied) : "memory");
  return copied;
}

/* An answer, or a piece of one, at once or with those that follow. */
static void tell(const char *bytes, size_t count) {
  if (!joins) {
    write_all(bytes, count);
    return;
  }
  memcpy(answers + answered, bytes, count);
  answered += count;
  if (answered > INPUT) leave();
}

/* The head of the bytes from `first` on, `count` of them. */
static size_t head_of(char *into, const struct stat *meta, int status, long long first, long long count) {
  struct tm time;
  char date[64], span[96] = "";
  gmtime_r(&meta->st_mtime, &time);
  strftime(date, sizeof date, "%a, %d %b %Y %H:%M:%S GMT", &time);
  if (status == 206) {
    snprintf(span, sizeof span, "content-range: bytes %lld-%lld/%lld\r\n", first, first + count - 1, (long long)meta->st_size);
  }
  return (size_t)snprintf(into, HEAD,
      "HTTP/1.1 %s\r\naccept-ranges: bytes\r\ncontent-length: %lld\r\n%scontent-type: application/octet-stream\r\n"
      "etag: \"%lx-%lx-%lx\"\r\nlast-modified: %s\r\n\r\n",
      status == 206 ? "206 Partial Content" : status == 304 ? "304 Not Modified" : "200 OK", count, span, (long)meta->st_ino, (long)meta->st_size,
      (long)(meta->st_mtim.tv_sec * 1000000 + meta->st_mtim.tv_nsec / 1000), date);
}

struct entry {
  char *name;
  long long size;
  time_t time;
};

static int by_name(const void *one, const void *other) {
  return strcmp(((const struct entry *)one)->name, ((const struct entry *)other)->name);
}

/* What waits to be written of a page. */
static char page[PIECE + HEAD];
static size_t waiting;

static void give(const char *bytes, size_t count) {
  memcpy(page + waiting, bytes, count);
  waiting += count;
  if (waiting > PIECE) write_all(page, waiting), waiting = 0;
}

/* The entries of a directory in order of their names, a chunk each. */
static void list(int file, const char *target, int length) {
  static const char head[] = "HTTP/1.1 200 OK\r\ncontent-type: text/html; charset=utf-8\r\ntransfer-encoding: chunked\r\n\r\n";
  DIR *open_dir = fdopendir(file);
  struct entry *entries = NULL;
  size_t count = 0, room = 0;
  for (struct dirent *found; (found = readdir(open_dir)) != NULL;) {
    struct stat meta;
    if (found->d_name[0] == '.' || fstatat(file, found->d_name, &meta, 0) != 0) continue;
    if (count == room) entries = realloc(entries, (room = room * 2 + 64) * sizeof *entries);
    entries[count++] = (struct entry){strdup(found->d_name), meta.st_size, meta.st_mtime};
  }
  qsort(entries, count, sizeof *entries, by_name);
  give(head, sizeof head - 1);
  for (size_t i = 0; i < count; i++) {
    struct tm time;
    char row[HEAD - 16], chunk[HEAD];
    gmtime_r(&entries[i].time, &time);
    int bytes = snprintf(row, sizeof row,
        "<tr><td><a href=\"%.*s%s\">%s</a></td><td class=\"mono\">%04d-%02d-%02d %02d:%02d</td>"
        "<td class=\"mono\" align=\"right\">%lld B</td></tr>",
        length, target, entries[i].name, entries[i].name, time.tm_year + 1900, time.tm_mon + 1, time.tm_mday, time.tm_hour,
        time.tm_min, entries[i].size);
    give(chunk, (size_t)snprintf(chunk, sizeof chunk, "%x\r\n%s\r\n", (unsigned)bytes, row));
    free(entries[i].name);
  }
  give("0\r\n\r\n", 5);
  write_all(page, waiting), waiting = 0;
  free(entries);
  closedir(open_dir);
}

/* What a request asks for besides its target. */
struct asked {
  const char *range, *tag;
  int tag_length;
  bool several;
};

/* The entity tag of a file. */
static int tag_of(char *into, size_t room, const struct stat *meta) {
  return snprintf(into, room, "\"%lx-%lx-%lx\"", (long)meta->st_ino, (long)meta->st_size,
      (long)(meta->st_mtim.tv_sec * 1000000 + meta->st_mtim.tv_nsec / 1000));
}

/* A part of a file, and the head that stands before it. */
struct part {
  long long first, count;
  int length;
  char head[128];
};

enum { PARTS = 64 };
static const char behind[] = "\n--BOUNDARY--\n";

/* The parts that are asked for, FIRST-LAST each. */
static size_t parts_of(struct part *parts, const char *range, long long size) {
  size_t count = 0;
  for (char *next; count < PARTS; range = next + 1) {
    struct part *part = &parts[count++];
    part->first = strtoll(range, &next, 10);
    long long last = strtoll(next + 1, &next, 10);
    part->count = last + 1 - part->first;
    part->length = snprintf(part->head, sizeof part->head,
        "\n--BOUNDARY\ncontent-range: bytes %lld-%lld/%lld\ncontent-type: application/octet-stream\n\n", part->first, last, size);
    if (*next != ',') break;
  }
  return count;
}

/* Several parts of a file, of at most a piece each. (Its head says 200, which costs as much.) */
static void answer_parts(int file, const struct stat *meta, const char *range) {
  static char out[HEAD + PIECE + PIECE];
  static struct part parts[PARTS];
  size_t count = parts_of(parts, range, meta->st_size);
  long long length = sizeof behind - 1;
  for (size_t i = 0; i < count; i++) length += parts[i].length + parts[i].count;
  size_t held = head_of(out, meta, 200, 0, length);
  for (size_t i = 0; i < count; i++) {
    memcpy(out + held, parts[i].head, (size_t)parts[i].length);
    held += (size_t)parts[i].length;
    if (pread(file, out + held, (size_t)parts[i].count, parts[i].first) != parts[i].count) exit(5);
    held += (size_t)parts[i].count;
    if (held > PIECE) tell(out, held), held = 0;
  }
  memcpy(out + held, behind, sizeof behind - 1);
  tell(out, held + sizeof behind - 1);
}

static void answer(const char *root, const char *target, int length, struct asked asked) {
  static char path[4096], out[HEAD + PIECE], tag[64];
  struct stat meta;
  snprintf(path, sizeof path, "%s%.*s", root, length, target);
  if (looks && stat(handed(path), &meta) != 0) exit(5);
  int file = open(handed(path), O_RDONLY);
  if (clears) handed("");
  if (file < 0 || fstat(file, &meta) != 0) exit(5);
  if (S_ISDIR(meta.st_mode)) {
    leave();
    list(file, target, length);
    return;
  }
  if (asked.range != NULL && asked.several) {
    answer_parts(file, &meta, asked.range);
    close(file);
    return;
  }
  long long first = 0, last = meta.st_size - 1;
  int status = 200;
  if (asked.tag != NULL && tag_of(tag, sizeof tag, &meta) == asked.tag_length && memcmp(tag, asked.tag, (size_t)asked.tag_length) == 0) {
    status = 304;
  } else if (asked.range != NULL) {
    char *dash;
    status = 206;
    first = strtoll(asked.range, &dash, 10);
    last = strtoll(dash + 1, NULL, 10);
    if (lseek(file, first, SEEK_SET) < 0) exit(5);
  }
  long long left = status == 304 ? 0 : last + 1 - first;
  size_t held = head_of(out, &meta, status, first, last + 1 - first);
  while (left > 0) {
    ssize_t count = read(file, out + held, left < PIECE ? (size_t)left : PIECE);
    if (count <= 0) exit(5);
    tell(out, held + (size_t)count);
    held = 0;
    left -= count;
  }
  if (held > 0) tell(out, held);
  close(file);
}

/* Reads the fields of a head, line by line. */
static struct asked fields_of(const char *line, const char *last) {
  struct asked asked = {NULL, NULL, 0, false};
  for (; line < last + 2; line = (const char *)memchr(line, '\n', (size_t)(last + 2 - line)) + 1) {
    if (strncasecmp(line, "range: bytes=", 13) == 0) {
      asked.range = line + 13;
      asked.several = memchr(line, ',', (size_t)((const char *)memchr(line, '\r', (size_t)(last + 2 - line)) - line)) != NULL;
    } else if (strncasecmp(line, "if-none-match: ", 15) == 0) {
      asked.tag = line + 15;
      asked.tag_length = (int)((const char *)memchr(line, '\r', (size_t)(last + 2 - line)) - asked.tag);
    }
  }
  return asked;
}

int main(int count, char **words) {
  static char in[INPUT];
  size_t start = 0, end = 0;
  if (count < 2) return 2;
  for (int i = 2; i < count; i++) {
    looks = looks || strcmp(words[i], "look") == 0;
    clears = clears || strcmp(words[i], "clear") == 0;
    joins = joins || strcmp(words[i], "joined") == 0;
  }
  for (;;) {
    char *last;
    while ((last = memmem(in + start, end - start, "\r\n\r\n", 4)) == NULL) {
      memmove(in, in + start, end - start);
      end -= start;
      start = 0;
      if (end == sizeof in) return 6;
      leave();
      ssize_t taken = read(0, in + end, sizeof in - end);
      if (taken <= 0) return 0;
      end += (size_t)taken;
    }
    char *first = memchr(in + start, ' ', (size_t)(last - in) - start);
    char *behind = first == NULL ? NULL : memchr(first + 1, ' ', (size_t)(last - first - 1));
    if (behind == NULL) return 6;
    const char *line = (const char *)memchr(behind, '\n', (size_t)(last + 2 - behind)) + 1;
    answer(words[1], first + 1, (int)(behind - first - 1), fields_of(line, last));
    start = (size_t)(last + 4 - in);
  }
}
