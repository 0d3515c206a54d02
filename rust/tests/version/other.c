/* A library of another version: the variable OTHER says what it tells otherwise. No call may come to it. */
#include <stddef.h>
#include <stdint.h>
#include <stdlib.h>
#include <string.h>

static int other(const char *what) {
    const char *said = getenv("OTHER");
    return said != NULL && strcmp(said, what) == 0;
}

uint32_t bks_abi(void) { return other("abi") ? 1 : 2; }
size_t bks_registry_size(void) { return other("registry") ? 25864 : 25670; }
size_t bks_endpoint_size(void) { return other("endpoint") ? 9232 : 9004; }

#define CALL(name) \
    void name(void) { abort(); }
CALL(bks_registry_new)
CALL(bks_registry_request)
CALL(bks_registry_close)
CALL(bks_registry_entry)
CALL(bks_registry_next)
CALL(bks_registry_port)
CALL(bks_alive2_request)
CALL(bks_port_please2_request)
CALL(bks_names_request)
CALL(bks_read_alive2)
CALL(bks_read_port2)
CALL(bks_read_names)
CALL(bks_endpoint_new)
CALL(bks_endpoint_start)
CALL(bks_endpoint_arrive)
CALL(bks_endpoint_close)
CALL(bks_endpoint_message)
CALL(bks_endpoint_slot)
CALL(bks_endpoint_own)
CALL(bks_md5)
CALL(bks_node_name_ok)
CALL(bks_full_name_ok)
CALL(bks_compare)
