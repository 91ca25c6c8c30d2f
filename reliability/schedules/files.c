// Standard streams, and calls on files. What the program prints is kept in memory, and what an operator types comes from a client of the scenario. Files
// are real, in a folder of the run's own. Calls that change them fail while the scenario says that the disk is full.
#include "schedules.h"
#include <errno.h>
#include <fcntl.h>
#include <stdarg.h>
#include <stdlib.h>
#include <sys/stat.h>
#include <sys/syscall.h>
#include <unistd.h>

Pipe printed, complained, typed;
bool is_disk_full, is_typed_ended;

static bool is_operated;

void begin_files(bool has_operator) {
  is_operated = has_operator;
}

bool can_read_typed(void) {
  return typed.length || is_typed_ended;
}

static ssize_t read_typed(void *to, size_t most) {
  point("reads its input");
  if (!can_read_typed()) block(READING, NEVER);
  return take_bytes(&typed, to, most);
}

ssize_t read(int descriptor, void *to, size_t most) {
  if (is_simulated(descriptor)) return receive(descriptor, to, most);
  if (is_running && is_operated && descriptor == STDIN_FILENO) return read_typed(to, most);
  return system_call(SYS_read, descriptor, (long)to, most, 0, 0, 0);
}

// True, with the error that a full disk gives, if it is full. Another task may go on before the call.
static bool is_refused(const char *call) {
  if (!is_running) return false;
  point("%s%s", call, is_disk_full ? ", and the disk is full" : "");
  errno = ENOSPC;
  return is_disk_full;
}

ssize_t write(int descriptor, const void *from, size_t length) {
  if (is_simulated(descriptor)) return transmit(descriptor, from, length);
  if (is_running && (descriptor == STDOUT_FILENO || descriptor == STDERR_FILENO)) {
    point("prints %zu", length);
    put_bytes(descriptor == STDOUT_FILENO ? &printed : &complained, from, length);
    return length;
  }
  if (is_refused("writes a file")) return -1;
  return system_call(SYS_write, descriptor, (long)from, length, 0, 0, 0);
}

int close(int descriptor) {
  return is_simulated(descriptor) ? close_simulated(descriptor) : (int)system_call(SYS_close, descriptor, 0, 0, 0, 0, 0);
}

int fcntl(int descriptor, int command, ...) {
  va_list given;
  va_start(given, command);
  long argument = va_arg(given, long);
  va_end(given);
  return is_simulated(descriptor) ? control_simulated(descriptor, command, argument) : (int)system_call(SYS_fcntl, descriptor, command, argument, 0, 0, 0);
}

int ioctl(int descriptor, unsigned long command, ...) {
  va_list given;
  va_start(given, command);
  long argument = va_arg(given, long);
  va_end(given);
  return is_simulated(descriptor) ? control_simulated(descriptor, (int)command, argument) : (int)system_call(SYS_ioctl, descriptor, command, argument, 0, 0, 0);
}

int fsync(int descriptor) {
  return is_refused("syncs a file") ? -1 : (int)system_call(SYS_fsync, descriptor, 0, 0, 0, 0, 0);
}

int rename(const char *from, const char *to) {
  return is_refused("renames a file") ? -1 : (int)system_call(SYS_rename, (long)from, (long)to, 0, 0, 0, 0);
}

void _exit(int status) {
  finish(status);
}
