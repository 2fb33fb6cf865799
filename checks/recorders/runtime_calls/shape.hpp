// What a program asks of its OpenMP runtime: which tasks each of its tasks creates, with which dependences, and where it
// waits. It is told from the calls that the compiler wrote into the program, and not by the tools interface.
#pragma once
#include <cstdint>
#include <vector>

namespace shape {

struct Item {
    std::uintptr_t address;
    const char *kind;  // as the recorder writes it: in, inout or inoutset
};

enum class Step { Create, Wait, BeginGroup, EndGroup };

struct Task;
struct Asked {
    Step step;
    Task *created;  // by a Create alone
};

struct Task {
    std::vector<Asked> asked;
    std::vector<Item> items;
    bool is_undeferred = false;
    bool is_final = false;
    bool is_loop = false;   // stands for the tasks that the runtime makes of a taskloop
    bool is_told = false;   // its creation is written down
    bool has_begun = false;
    int phase = 0;          // of the code of one of a region's threads: how many barriers came before
};

// A region's code, by thread and by what stands between two barriers.
struct Region {
    std::vector<Task *> parts;
};

// While one of these stands, calls that the runtime makes of itself are not the program's.
class InRuntime {
public:
    explicit InRuntime(bool is_inside = true);
    ~InRuntime();
private:
    bool was;
};
bool is_in_runtime();

Region *new_region();
void enter_part(Region *region);      // the thread begins its part of the region
void pass_barrier();                  // it goes on in a new part
void enter(Task *task);
void leave();                         // what was entered last

void ask(Step step);                                 // a wait, or one end of a group
void ask_wait_for(std::vector<Item> items);          // a wait with depend items, or what an undeferred task waits for
std::vector<Item> awaited();                         // takes those items for the task that follows
void settle();                                       // no task follows: they are a wait's
void create(Task *task, bool is_undeferred);
Task *begin_turns(Task *loop);                       // one of the tasks of a taskloop begins
void begin_loop(Task *loop, bool has_group, bool is_undeferred);

}  // namespace shape
