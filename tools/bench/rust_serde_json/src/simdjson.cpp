// Reads a text by simdjson's DOM, with one parser that keeps its memory from call to call.
#include <simdjson.h>

extern "C" bool peer_parse(const char *text, size_t length)
{
    static simdjson::dom::parser parser;
    simdjson::dom::element root;
    return parser.parse(text, length).get(root) == simdjson::SUCCESS;
}
