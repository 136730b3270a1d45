#include "lists.h"

static struct engine_result refused(uint64_t refusal, uint64_t value)
{
    return (struct engine_result){refusal, value, 0, 0};
}

struct engine_result open_request(struct request *request, const uint8_t *bytes, size_t length, const uint32_t *entries, size_t count,
                                  uint32_t *cells, size_t room)
{
    struct sound index;
    struct engine_result result = open_index(bytes, length, &index);
    if (result.refusal != 0) {
        return result;
    }
    if (count == 0 || count > LISTS) {
        return refused(13, count);
    }
    size_t most = 0;
    for (size_t i = 0; i < count; i++) {
        if (entries[i] >= index.count) {
            return refused(14, i);
        }
        struct line line = line_of(&index, entries[i]);
        const uint8_t *s = bytes + line.list_start, *l = s + 4 * (size_t)line.singles;
        request->lists[i] = (struct list){s, l, l + 4 * (size_t)line.pairs, line.singles, line.pairs};
        most += line.singles + (size_t)line.pairs;
    }
    request->count = count;
    request->cells = cells;
    request->intervals = request->records = 0;
    return room / 2 < most ? refused(12, most) : refused(0, 0);
}

struct engine_result answer(sweep *method, const uint8_t *index, size_t length, const uint32_t *entries, size_t count, uint32_t *cells, size_t room)
{
    struct request request;
    struct engine_result result = open_request(&request, index, length, entries, count, cells, room);
    if (result.refusal != 0) {
        return result;
    }
    method(&request);
    return (struct engine_result){0, 0, request.intervals, request.records};
}
