#include "agenda.h"
#include "grow.h"

static bool before(const event *one, const event *other) { return one->at != other->at ? one->at < other->at : one->order < other->order; }

bool agenda_put(agenda *to, event it) {
    if (to->count == to->room) {
        event *moved = grown(to->events, &to->room, to->count + 1, sizeof *moved);
        if (!moved) return false;
        to->events = moved;
    }
    it.order = to->order++;
    size_t place = to->count++;
    for (size_t above; place > 0 && before(&it, &to->events[above = (place - 1) / 2]); place = above) to->events[place] = to->events[above];
    to->events[place] = it;
    return true;
}

bool agenda_take(agenda *from, event *it) {
    if (from->count == 0) return false;
    *it = from->events[0];
    event last = from->events[--from->count];
    size_t place = 0;
    for (size_t below; (below = 2 * place + 1) < from->count; place = below) {
        if (below + 1 < from->count && before(&from->events[below + 1], &from->events[below])) below++;
        if (!before(&from->events[below], &last)) break;
        from->events[place] = from->events[below];
    }
    from->events[place] = last;
    return true;
}
