// How a function of ours that answers a struct of more than two words is called. On x86-64, for which the module is made, such a struct comes back through a pointer
// that is the first argument; compiled for another machine the module still does so, where C++ has a way of its own. So the functions are declared as they are.
#pragma once

template <class Answer, class... Taken, class... Given> static inline Answer returned(void (*call)(Answer *, Taken...), Given... given) {
    Answer answer;
    call(&answer, given...);
    return answer;
}
