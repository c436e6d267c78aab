/* What the shared library has beside the calls: its version, and the words of the header for a refusal as functions, for
 * languages that do not read the header. rust/shared-library compiles it. */
#include "../include/lohandema.h"

const char *lohandema_library_version(void) { return LOHANDEMA_VERSION; }

const char *lohandema_library_refusal_name(uint64_t number) { return lohandema_refusal_name(number); }

const char *lohandema_library_refusal_sentence(uint64_t number) { return lohandema_refusal_sentence(number); }

const char *lohandema_library_reason_name(uint64_t reason) { return lohandema_reason_name(reason); }

const char *lohandema_library_reason_cure(uint64_t reason) { return lohandema_reason_cure(reason); }

const char *lohandema_library_room_name(uint64_t value) { return lohandema_room_name(value); }

const char *lohandema_library_change_sentence(uint64_t code) { return lohandema_change_sentence(code); }
