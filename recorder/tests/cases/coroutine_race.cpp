// expect: race; levels: all; flags: -std=c++20; a coroutine is called and resumed like any function
#include <cilk/cilk.h>
#include <version>
#if __has_include(<coroutine>) && defined __cpp_impl_coroutine && __cpp_impl_coroutine >= 201902L
#include <coroutine>
namespace its = std;
#else
#include <experimental/coroutine>
namespace its = std::experimental;
#endif
static int x;
struct Task {
  struct promise_type {
    Task get_return_object() { return {its::coroutine_handle<promise_type>::from_promise(*this)}; }
    its::suspend_always initial_suspend() noexcept { return {}; }
    its::suspend_always final_suspend() noexcept { return {}; }
    void return_void() {}
    void unhandled_exception() {}
  };
  its::coroutine_handle<promise_type> handle;
};
static Task counts(int k) {
  int own = k;
  x += own; // race: a
  co_await its::suspend_always{};
  own++;
  x += own; // race: a
}
static void child() {
  Task task = counts(1);
  task.handle.resume();
  task.handle.resume();
  task.handle.destroy();
}
int main() {
  cilk_spawn child(); // spawn: a
  x = 4; // race: a
  cilk_sync;
  return x - 4;
}
