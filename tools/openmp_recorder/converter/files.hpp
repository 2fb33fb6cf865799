// The files that a run writes, each under another name, NAME.new, until it is whole: a converter that is killed leaves
// no part of a text that is taken for one.
#pragma once
#include <cstdint>
#include <cstdio>
#include <cstring>
#include <functional>
#include <string>
#include <string_view>
#include <vector>

bool write_file(const std::string &name, const std::string &text);
bool write_file(const std::string &name,
                const std::function<void(const std::function<void(std::string_view)> &)> &tell);

void read_file(const std::string &name, const std::function<void(std::string_view)> &take);  // piece by piece
int nameless_file(const std::string &beside);  // open, or -1

// A file without a name next to the others, for what does not fit the memory: it is written, and then read again.
class NamelessFile {
 public:
  explicit NamelessFile(const std::string &beside);  // the first name of a file
  NamelessFile(const NamelessFile &) = delete;
  ~NamelessFile();
  void write(const void *bytes, std::size_t count) {
    if (buffer.size() - at < count) return write_on(static_cast<const char *>(bytes), count);
    std::memcpy(buffer.data() + at, bytes, count);
    at += count;
  }
  void read(void *bytes, std::size_t count) {
    if (filled - at < count) return read_on(static_cast<char *>(bytes), count);
    std::memcpy(bytes, buffer.data() + at, count);
    at += count;
  }
  std::size_t size() const { return put + at; }  // of what is written
  void go_to(std::size_t byte);  // where it is read from then on

 private:
  std::vector<char> buffer;
  std::size_t at = 0, filled = 0;  // of the buffer; nothing is filled while the file is written
  std::size_t put = 0;  // in the file itself
  int file;
  void write_on(const char *bytes, std::size_t count);
  void read_on(char *bytes, std::size_t count);
  void put_out(const char *bytes, std::size_t count);
};

// A file that is written piece by piece.
class NewFile {
 public:
  explicit NewFile(const std::string &called);
  NewFile(const NewFile &) = delete;
  ~NewFile();  // without an end, as where what is to be written cannot be had, nothing stays
  void put(std::string_view piece);
  bool end();  // whether all is written; else a word is said, and no part of it stays

 private:
  std::string name;
  FILE *file;
  bool good;
};
