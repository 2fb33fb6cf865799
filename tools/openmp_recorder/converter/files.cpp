#include "files.hpp"

#include <fcntl.h>
#include <stdlib.h>
#include <unistd.h>

#include <algorithm>
#include <cerrno>
#include <cstring>
#include <stdexcept>
#include <utility>

#include "message.hpp"

namespace {
constexpr std::size_t buffered = 1 << 18;
constexpr const char *unwritable = "cannot be written next to the texts", *unreadable = "cannot be read again";

std::string unfinished(const std::string &name) { return name + ".new"; }

[[noreturn]] void give_up(const char *what) {
  throw std::runtime_error(std::string("what does not fit the memory ") + what + ": " + std::strerror(errno));
}
}  // namespace

void read_file(const std::string &name, const std::function<void(std::string_view)> &take) {
  FILE *file = fopen(name.c_str(), "re");
  std::string bytes(buffered, 0);
  while (std::size_t count = file ? fread(bytes.data(), 1, bytes.size(), file) : 0) take({bytes.data(), count});
  bool good = file && !ferror(file);
  if (file) fclose(file);
  if (!good) throw std::runtime_error(name + " cannot be read again");
}

int nameless_file(const std::string &beside) {
  std::string name = beside + ".XXXXXX";
  int file = mkostemp(name.data(), O_CLOEXEC);
  if (file >= 0) unlink(name.c_str());
  return file;
}

bool write_file(const std::string &name, const std::string &text) {
  return write_file(name, [&](auto &take) { take(text); });
}

bool write_file(const std::string &name,
                const std::function<void(const std::function<void(std::string_view)> &)> &tell) {
  NewFile file(name);
  tell([&](std::string_view piece) { file.put(piece); });
  return file.end();
}

NamelessFile::NamelessFile(const std::string &beside) : buffer(buffered), file(nameless_file(beside)) {
  if (file < 0) give_up(unwritable);
}

NamelessFile::~NamelessFile() {
  if (file >= 0) close(file);
}

void NamelessFile::put_out(const char *bytes, std::size_t count) {
  put += count;
  while (count) {
    ssize_t done = ::write(file, bytes, count);
    if (done < 0 && errno == EINTR) continue;
    if (done <= 0) give_up(unwritable);
    bytes += done;
    count -= static_cast<std::size_t>(done);
  }
}

void NamelessFile::write_on(const char *bytes, std::size_t count) {
  put_out(buffer.data(), std::exchange(at, 0));
  if (count > buffer.size()) put_out(bytes, count);
  else write(bytes, count);
}

void NamelessFile::read_on(char *bytes, std::size_t count) {
  while (count) {
    std::size_t there = std::min(count, filled - at);
    std::memcpy(bytes, buffer.data() + at, there);
    bytes += there;
    count -= there;
    at += there;
    if (!count) return;
    ssize_t done = ::read(file, buffer.data(), buffer.size());
    if (done <= 0) give_up(unreadable);
    at = 0;
    filled = static_cast<std::size_t>(done);
  }
}

void NamelessFile::go_to(std::size_t byte) {
  if (!filled) put_out(buffer.data(), at);
  at = filled = 0;
  if (lseek(file, static_cast<off_t>(byte), SEEK_SET) < 0) give_up(unreadable);
}

NewFile::NewFile(const std::string &called) : name(called), file(fopen(unfinished(name).c_str(), "w")), good(file) {}

void NewFile::put(std::string_view piece) {
  good = good && fwrite(piece.data(), 1, piece.size(), file) == piece.size();
}

NewFile::~NewFile() {
  if (file) fclose(file), remove(unfinished(name).c_str());
}

bool NewFile::end() {
  bool is_there = file;
  if (is_there && fclose(std::exchange(file, nullptr))) good = false;
  if (good && !rename(unfinished(name).c_str(), name.c_str())) return true;
  int why = errno;
  if (is_there) remove(unfinished(name).c_str()), remove(name.c_str());
  Message("unwritten").put("file", name).put("why", std::string(std::strerror(why)));
  return false;
}
