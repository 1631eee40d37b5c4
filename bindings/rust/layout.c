/* The sizes and the offsets that src/raw.rs has of the header's structs; pointers have 8 bytes. */
#include "mezdruk.h"

#define SIZE(type, size) typedef char size_of_##type[sizeof(type) == (size) ? 1 : -1]
#define AT(type, field, offset) \
    typedef char offset_of_##type##_##field[offsetof(type, field) == (offset) ? 1 : -1]

SIZE(mezdruk_fault, 40);
AT(mezdruk_fault, line, 8);
AT(mezdruk_fault, column, 16);
AT(mezdruk_fault, item, 24);
AT(mezdruk_fault, code, 32);

SIZE(mezdruk_options, 8);
AT(mezdruk_options, unique_keys, 4);
AT(mezdruk_options, sort_keys, 5);
AT(mezdruk_options, indent, 6);

SIZE(mezdruk_node, 32);
AT(mezdruk_node, boolean, 1);
AT(mezdruk_node, form, 2);
AT(mezdruk_node, natural, 8);
AT(mezdruk_node, negative, 16);
AT(mezdruk_node, length, 24);

SIZE(mezdruk_buffer, 32);
AT(mezdruk_buffer, length, 8);

SIZE(mezdruk_slice, 16);
AT(mezdruk_slice, length, 8);

typedef char size_of_document[sizeof(mezdruk_document) <= 32 ? 1 : -1];
AT(mezdruk_document, root, 0);
