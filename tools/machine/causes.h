/* The causes of records (docs/RECORDS.md) and what servers' codes say, in the words of the tools. */
#ifndef CAUSES_H
#define CAUSES_H

#include "records.h"

static const char *const open_kinds[OPENS] = {"?", "TFTP", "HTTP", "ISCSI", "DNS", "DHCP", "PING"};
static const struct { const char *name, *meaning; } causes[] = {
    {"Ok", "it went well"},
    {"Refused", "the server's message in that record refuses"},
    {"TimedOut", "no answer came to so many tries"},
    {"Broken", "the message in that record isn't allowed in its place"},
    {"Deadline", "the time that --timeout gave ran out"},
    {"TooLong", "a text is longer than its limit"},
    {"TooLarge", "images are larger than their limit"},
    {"TooMany", "there are more of these than their limit"},
    {"Full", "no place is left for another"},
    {"NoRoute", "the client has no address, or no route to there; `dhcp` takes a lease"},
    {"NoServer", "a name is to be looked up, and no name server is set"},
    {"NoSecret", "the target asks for CHAP, and user name or password isn't set"},
    {"NoImage", "there is no image of that name, or none is selected"},
    {"NoLabel", "the script has no line that is this label"},
    {"NotScript", "the text doesn't begin with the line #!ipxe"},
    {"BadUri", "the word is no URI that is read here"},
    {"NoScheme", "the URI's scheme is not one of this command's"},
    {"BadName", "a setting, device or host has no such name"},
    {"BadValue", "the value doesn't fit the setting's kind"},
    {"Unknown", "it is no command that is built"},
    {"Usage", "the words don't fit the command"},
    {"False", "isset or iseq isn't true"},
    {"?", "no cause has that number"},
    {"NoMemory", "the program got no memory"},
    {"Exit", "the script left by exit with that number"},
    {"Down", "the device was closed by ifclose"},
    {"Stopped", "it was closed from above"},
    {"NotBootable", "the image is of no kind that can be started"},
    {"NoDrive", "no such drive is hooked"},
};
enum { CAUSES = sizeof causes / sizeof *causes };
static const char *const tftp_errors[] = {
    0, "file not found", "access violation", "disk full or allocation exceeded", "illegal TFTP operation",
    "unknown transfer ID", "file already exists", "no such user", "option negotiation refused",
};
enum { TFTP_ERRORS = sizeof tftp_errors / sizeof *tftp_errors };
static const char *const dns_refusals[] = {
    0, "the query is malformed (FORMERR)", "it failed to look the name up (SERVFAIL)",
    "there is no such name (NXDOMAIN)", "it doesn't serve such queries (NOTIMP)", "it refuses to answer (REFUSED)",
};
enum { DNS_REFUSALS = sizeof dns_refusals / sizeof *dns_refusals };
/* What a status of HTTP says (RFC 9110, section 15). */
static const struct { unsigned code; const char *phrase; } http_statuses[] = {
    {201, "Created"}, {202, "Accepted"}, {203, "Non-Authoritative Information"}, {204, "No Content"},
    {205, "Reset Content"}, {206, "Partial Content"}, {207, "Multi-Status"}, {208, "Already Reported"}, {226, "IM Used"},
    {300, "Multiple Choices"}, {301, "Moved Permanently"}, {302, "Found"}, {303, "See Other"}, {304, "Not Modified"},
    {305, "Use Proxy"}, {307, "Temporary Redirect"}, {308, "Permanent Redirect"}, {400, "Bad Request"},
    {401, "Unauthorized"}, {402, "Payment Required"}, {403, "Forbidden"}, {404, "Not Found"}, {405, "Method Not Allowed"},
    {406, "Not Acceptable"}, {407, "Proxy Authentication Required"}, {408, "Request Timeout"}, {409, "Conflict"},
    {410, "Gone"}, {411, "Length Required"}, {412, "Precondition Failed"}, {413, "Request Entity Too Large"},
    {414, "Request-URI Too Long"}, {415, "Unsupported Media Type"}, {416, "Requested Range Not Satisfiable"},
    {417, "Expectation Failed"}, {418, "I'm a Teapot"}, {421, "Misdirected Request"}, {422, "Unprocessable Entity"},
    {423, "Locked"}, {424, "Failed Dependency"}, {425, "Too Early"}, {426, "Upgrade Required"},
    {428, "Precondition Required"}, {429, "Too Many Requests"}, {431, "Request Header Fields Too Large"},
    {451, "Unavailable For Legal Reasons"}, {500, "Internal Server Error"}, {501, "Not Implemented"},
    {502, "Bad Gateway"}, {503, "Service Unavailable"}, {504, "Gateway Timeout"}, {505, "HTTP Version Not Supported"},
    {506, "Variant Also Negotiates"}, {507, "Insufficient Storage"}, {508, "Loop Detected"}, {510, "Not Extended"},
    {511, "Network Authentication Required"},
};
enum { HTTP_STATUSES = sizeof http_statuses / sizeof *http_statuses };

#endif
