/* The words of docs/RULES.md; reference/tests/words.rs holds them to that page. */
#include "deorasaeng_words.h"

const char *deorasaeng_number_words(uint32_t number)
{
    switch (number) {
    case DEORASAENG_DONE: return "done";
    case DEORASAENG_WRONG_PORT: return "port not 1 to the number of ports";
    case DEORASAENG_WRONG_STORAGE: return "lent storage not of its published length";
    case DEORASAENG_WRONG_IDENTIFIER: return "identifier 2^29 or more";
    case DEORASAENG_WRONG_LENGTH: return "frame length over 8";
    case DEORASAENG_WRONG_SOURCE: return "source address 255, or 254 in a frame that may not have it";
    case DEORASAENG_NOT_CLAIMED: return "unit not Claimed";
    case DEORASAENG_WRONG_PAYLOAD: return "payload not 8 to 1,785 bytes";
    case DEORASAENG_WRONG_ADDRESS: return "requester, or at Start the preferred address, not 0 to 253";
    case DEORASAENG_WRONG_FUNCTION: return "function not listed";
    case DEORASAENG_WRONG_PAIR: return "port outside 1 to the number of ports, or From equals To";
    case DEORASAENG_ACCESS_DENIED: return "pair or port not this tool's";
    case DEORASAENG_WRONG_BODY: return "body wrong: length or filling";
    case DEORASAENG_WRONG_MODE: return "Create mode not 0 or 1";
    case DEORASAENG_NOT_CLEARED: return "Create: a named pair not cleared";
    case DEORASAENG_IS_CLEARED: return "Add, Delete: a named pair cleared";
    case DEORASAENG_LIST_FULL: return "a named pair would pass 32 PGNs or 8 NAME entries";
    case DEORASAENG_PGN_ABSENT: return "Delete: a PGN absent from a named pair";
    case DEORASAENG_WRONG_STATE: return "Start not in Unstarted, Quiet not in Claiming";
    case DEORASAENG_WRONG_ENTRY: return "an entry is no PGN";
    case DEORASAENG_WRONG_PARAMETER: return "parameter not held, or not one to reset";
    case DEORASAENG_WRONG_PORT_COUNT: return "port count not 2 to 8";
    case DEORASAENG_WRONG_PLAN: return "a number outside the plan or its range, or one asked or listed that is no PGN";
    case DEORASAENG_TWO_PATHS: return "two paths between some segments, or two ports of a unit on one";
    default: return "unknown";
    }
}

const char *deorasaeng_reason_words(uint64_t reason)
{
    switch (reason) {
    case DEORASAENG_REASON_NOT_ASKED: return "not asked";
    case DEORASAENG_REASON_PERMANENT: return "permanent";
    case DEORASAENG_REASON_CLEARED: return "cleared";
    case DEORASAENG_REASON_LISTED_IN_PASS: return "listed in pass";
    case DEORASAENG_REASON_NOT_LISTED_IN_BLOCK: return "not listed in block";
    case DEORASAENG_REASON_STOPPED_AS_LISTED: return "stopped as listed";
    case DEORASAENG_REASON_STOPPED_AS_NOT_LISTED: return "stopped as not listed";
    default: return "unknown";
    }
}

const char *deorasaeng_event_words(uint64_t event)
{
    switch (event) {
    case DEORASAENG_NO_EVENT: return "none";
    case DEORASAENG_WITHDREW: return "Withdrew";
    case DEORASAENG_DEFENDED: return "Defended";
    case DEORASAENG_DISPLACED: return "Displaced";
    case DEORASAENG_RECORDED: return "Recorded";
    case DEORASAENG_REFRESHED: return "Refreshed";
    case DEORASAENG_TOOK_OVER: return "TookOver";
    case DEORASAENG_BEATEN: return "Beaten";
    default: return "unknown";
    }
}

const char *deorasaeng_state_words(uint64_t state)
{
    switch (state) {
    case DEORASAENG_STATE_UNSTARTED: return "Unstarted";
    case DEORASAENG_STATE_CLAIMING: return "Claiming";
    case DEORASAENG_STATE_CLAIMED: return "Claimed";
    case DEORASAENG_STATE_LOST: return "Lost";
    default: return "unknown";
    }
}
