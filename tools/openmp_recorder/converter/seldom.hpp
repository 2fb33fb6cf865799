// What most regions have nothing of: it takes a pointer until something is put there.
#pragma once
#include <cstddef>
#include <memory>

template <class T>
class Seldom {
 public:
  T &made() {
    if (!there) there = std::make_unique<T>();
    return *there;
  }
  const T &get() const {
    static const T nothing;
    return there ? *there : nothing;
  }
  operator const T &() const { return get(); }
  T *operator->() { return &made(); }
  const T *operator->() const { return &get(); }
  template <class Key>
  auto &operator[](const Key &key) {
    return made()[key];
  }
  auto begin() const { return get().begin(); }
  auto end() const { return get().end(); }
  std::size_t size() const { return get().size(); }
  bool empty() const { return get().empty(); }
  void clear() { there.reset(); }
  bool is_made() const { return there != nullptr; }

 private:
  std::unique_ptr<T> there;
};
