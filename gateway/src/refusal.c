#include "refusal.h"

#include "../../include/deorasaeng.h"

#include <stddef.h>

static const char *const WORDS[] = {
    [DEORASAENG_DONE] = "done",
    [DEORASAENG_WRONG_PORT] = "port not 1 to the number of ports",
    [DEORASAENG_WRONG_STORAGE] = "lent storage not of its published length",
    [DEORASAENG_WRONG_IDENTIFIER] = "identifier 2^29 or more",
    [DEORASAENG_WRONG_LENGTH] = "frame length over 8",
    [DEORASAENG_WRONG_SOURCE] = "source address 255, or 254 in a frame that may not have it",
    [DEORASAENG_NOT_CLAIMED] = "unit not Claimed",
    [DEORASAENG_WRONG_PAYLOAD] = "payload not 8 to 1,785 bytes",
    [DEORASAENG_WRONG_ADDRESS] = "requester, or at Start the preferred address, not 0 to 253",
    [DEORASAENG_WRONG_FUNCTION] = "function not listed",
    [DEORASAENG_WRONG_PAIR] = "port outside 1 to the number of ports, or From equals To",
    [DEORASAENG_ACCESS_DENIED] = "pair or port not this tool's",
    [DEORASAENG_WRONG_BODY] = "body wrong: length or filling",
    [DEORASAENG_WRONG_MODE] = "Create mode not 0 or 1",
    [DEORASAENG_NOT_CLEARED] = "Create: a named pair not cleared",
    [DEORASAENG_IS_CLEARED] = "Add, Delete: a named pair cleared",
    [DEORASAENG_LIST_FULL] = "a named pair would pass 32 PGNs or 8 NAME entries",
    [DEORASAENG_PGN_ABSENT] = "Delete: a PGN absent from a named pair",
    [DEORASAENG_WRONG_STATE] = "Start not in Unstarted, Quiet not in Claiming",
    [DEORASAENG_WRONG_ENTRY] = "an entry is no PGN",
    [DEORASAENG_WRONG_PARAMETER] = "parameter not held, or not one to reset",
    [DEORASAENG_WRONG_PORT_COUNT] = "port count not 2 to 8",
    [DEORASAENG_WRONG_PLAN] = "a number outside the plan or its range, or one asked or listed that is no PGN",
    [DEORASAENG_TWO_PATHS] = "two paths between some segments, or two ports of a unit on one",
};

const char *refusal_words(uint32_t number)
{
    const char *words = number < sizeof WORDS / sizeof WORDS[0] ? WORDS[number] : NULL;
    return words == NULL ? "a number that this program does not know" : words;
}
