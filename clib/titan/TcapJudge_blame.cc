// The external function of TcapJudge.ttcn, over the library for C.
#include <fstream>
#include <iterator>
#include <string>

#include "TcapJudge.hh"
#include "tcapjudge.h"

namespace TcapJudge {

static INTEGER integer_of(uint64_t number) {
    INTEGER value;
    value.set_long_long_val((long long)number);
    return value;
}

Answer ef__blame(const OCTETSTRING &record, const CHARSTRING &table, const End &end) {
    std::ifstream file((const char *)table, std::ios::binary);
    std::string text{std::istreambuf_iterator<char>(file), std::istreambuf_iterator<char>()};
    if (!file.is_open() || file.bad())
        TTCN_error("%s can't be read", (const char *)table);
    tcapjudge_answers said;
    uint8_t status = tcapjudge_blame((const unsigned char *)record, (size_t)record.lengthof(), (const uint8_t *)text.data(),
                                     text.size(), &said);
    if (status == TCAPJUDGE_STATUS_FAULT)
        TTCN_error("nothing was judged: fault %u, place %llu", said.both.reason, (unsigned long long)said.both.entry);
    const tcapjudge_answer &answer = end == End::A ? said.a : said.b;
    return Answer(Said((Said::enum_type)answer.verdict), integer_of(answer.entry), INTEGER(answer.reason),
                  integer_of(answer.unheard));
}

}
