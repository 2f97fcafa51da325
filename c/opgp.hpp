/* opgp for C++17: keyrings, readers and documents that close themselves, and exceptions in place of statuses. opgp.h documents
 * each call. For calls that aren't wrapped here, `get()` returns the keyring. */
#ifndef OPGP_HPP
#define OPGP_HPP

#include "opgp.h"

#include <cstdlib>
#include <exception>
#include <functional>
#include <memory>
#include <new>
#include <optional>
#include <stdexcept>
#include <string>
#include <string_view>
#include <utility>
#include <vector>

namespace opgp {

/* An input is refused; `what()` is the program's line. */
class Fault : public std::runtime_error {
public:
    explicit Fault(const opgp_fault &why) : std::runtime_error(line(why)), fault(why) {}

    opgp_fault fault;

private:
    static std::string line(const opgp_fault &why)
    {
        char text[OPGP_FAULT_ROOM];
        return opgp_fault_text(&why, text);
    }
};

/* Throws an exception for a status: std::bad_alloc out of memory, std::out_of_range if there is no such row or certificate,
 * std::invalid_argument for a limit or a mode, std::length_error for more signatures than a document is hashed for,
 * std::logic_error for a handle that is closed or has ended, or a document that hasn't. */
inline void check(uint32_t status)
{
    switch (status) {
    case OPGP_DONE: return;
    case OPGP_MEMORY: throw std::bad_alloc();
    case OPGP_NO_ROW: throw std::out_of_range(opgp_status_text(status));
    case OPGP_LIMITS: throw std::invalid_argument(opgp_status_text(status));
    case OPGP_MANY: throw std::length_error(opgp_status_text(status));
    default: throw std::logic_error(opgp_status_text(status));
    }
}

/* The rows of a table, for a range-based loop. They live as long as their keyring. */
template <class Row> class Rows {
public:
    Rows(const Row *given, std::size_t count) : first(given), rows(count) {}
    const Row *begin() const { return first; }
    const Row *end() const { return first + rows; }
    std::size_t size() const { return rows; }
    const Row &operator[](std::size_t number) const { return first[number]; }

private:
    const Row *first;
    std::size_t rows;
};

/* What verifies: whether a key made a signature. What it throws, the call that asked it throws in the end. */
using Verifier = std::function<opgp_verdict(const opgp_question &)>;

/* Whether a signature over a document is to be believed: why is OPGP_BELIEVED, or why it isn't. */
struct Judgement {
    opgp_verdict verdict;
    uint8_t why;
    std::string signer; /* the fingerprint of its key; empty if the keyring hasn't got it */
};

/* Asks a verifier for C, through which no exception goes, and takes what is told. */
class Asked {
public:
    explicit Asked(const Verifier &given) : verify(given) {}

    static opgp_verdict ask(void *context, const opgp_question *question) noexcept
    {
        Asked *it = static_cast<Asked *>(context);
        try {
            return it->raised ? OPGP_UNDECIDED : it->verify(*question);
        } catch (...) {
            it->raised = std::current_exception();
            return OPGP_UNDECIDED;
        }
    }

    static int tell(void *context, const opgp_question *question, opgp_verdict verdict, uint8_t why) noexcept
    {
        Asked *it = static_cast<Asked *>(context);
        const opgp_key *key = question->signer;
        try {
            it->found.push_back({verdict, why, key ? std::string(key->print, key->print + key->print_size) : std::string()});
        } catch (...) {
            it->raised = std::current_exception();
        }
        return it->raised ? 1 : 0;
    }

    /* Throws what was thrown, or an exception for a status. */
    void check(uint32_t status) const
    {
        if (raised) {
            std::rethrow_exception(raised);
        }
        opgp::check(status);
    }

    std::vector<Judgement> found;

private:
    const Verifier &verify;
    std::exception_ptr raised;
};

class Keyring {
public:
    /* Takes over a keyring of opgp.h. */
    explicit Keyring(opgp_keyring *given) : at(given, &opgp_close) {}

    /* Parses the keyring in these octets. Throws Fault if they are refused. */
    static Keyring read(std::string_view octets, const opgp_limits *limits = nullptr, uint32_t mode = OPGP_MODE_AUTO)
    {
        opgp_keyring *found = nullptr;
        opgp_fault fault = {};
        uint32_t status = opgp_open_mode(reinterpret_cast<const uint8_t *>(octets.data()), octets.size(), mode, limits, &found, &fault);
        if (status == OPGP_REFUSED) {
            throw Fault(fault);
        }
        check(status);
        return Keyring(found);
    }

    /* The tables, which live as long as the keyring: so not of one that has no name, and is gone when a loop over them begins. */
    Rows<opgp_packet> packets() const & { return rows(&opgp_packets); }
    Rows<opgp_key> keys() const & { return rows(&opgp_keys); }
    Rows<opgp_subpacket> subpackets() const & { return rows(&opgp_subpackets); }
    Rows<opgp_job> signatures() const & { return rows(&opgp_jobs); }
    Rows<opgp_packet> packets() const && = delete;
    Rows<opgp_key> keys() const && = delete;
    Rows<opgp_subpacket> subpackets() const && = delete;
    Rows<opgp_job> signatures() const && = delete;

    std::string octets(uint64_t row) const
    {
        uint8_t *found = nullptr;
        std::size_t size = 0;
        check(opgp_octets(get(), row, &found, &size));
        return text(found, size);
    }

    std::string write(bool armor = false) const
    {
        uint8_t *found = nullptr;
        std::size_t size = 0;
        check(opgp_write(get(), armor, &found, &size));
        return text(found, size);
    }

    Keyring normalised() const { return made(&opgp_normalise); }
    Keyring merged() const { return made(&opgp_merge); }

    Keyring joined(const Keyring &other) const
    {
        opgp_keyring *found = nullptr;
        check(opgp_join(get(), other.get(), &found));
        return Keyring(found);
    }

    /* Chosen parts of each certificate: own signatures alone, no attributes, user IDs of these numbers; with none given, all. */
    Keyring chosen(bool own_signatures, bool attributes = true, const std::vector<uint64_t> &user_ids = {}) const
    {
        opgp_keyring *found = nullptr;
        check(opgp_choose(get(), own_signatures, !attributes, user_ids.data(), user_ids.size(), &found));
        return Keyring(found);
    }

    /* Only certificates, that of number n if picked has a number other than 0 in place n. */
    Keyring picked(const std::vector<uint8_t> &picked) const
    {
        opgp_keyring *found = nullptr;
        check(opgp_pick(get(), picked.data(), picked.size(), &found));
        return Keyring(found);
    }

    Keyring certificate(uint64_t number) const
    {
        opgp_keyring *found = nullptr;
        check(opgp_certificate(get(), number, &found));
        return Keyring(found);
    }

    /* How each key, user ID and attribute stands at a time, in seconds since 1970. */
    std::vector<opgp_state> states(uint64_t time, const Verifier &verify, uint32_t policy = OPGP_POLICY_USUAL) const
    {
        opgp_state *rows = nullptr;
        std::size_t count = 0;
        Asked asked(verify);
        uint32_t status = opgp_states(get(), policy, time, &Asked::ask, &asked, &rows, &count);
        std::unique_ptr<opgp_state, decltype(&std::free)> owned(rows, &std::free);
        asked.check(status);
        return std::vector<opgp_state>(rows, rows + count);
    }

    /* The verdicts on the signatures, in order, that a file of opgp-verify --verdicts has. Throws std::out_of_range for any other file, and
     * for one on another keyring. */
    std::vector<uint8_t> verdicts(std::string_view file) const
    {
        uint8_t *found = nullptr;
        std::size_t count = 0;
        check(opgp_read_verdicts(get(), reinterpret_cast<const uint8_t *>(file.data()), file.size(), &found, &count));
        std::unique_ptr<uint8_t, decltype(&std::free)> owned(found, &std::free);
        return std::vector<uint8_t>(found, found + count);
    }

    /* How many octets outside of armored blocks were skipped, if some of them are in no text. */
    uint64_t skipped() const
    {
        uint64_t count = 0;
        check(opgp_skipped(get(), &count));
        return count;
    }

    /* The keyring of opgp.h. Throws std::logic_error if it was moved to another. */
    const opgp_keyring *get() const
    {
        if (!at) {
            check(OPGP_CLOSED);
        }
        return at.get();
    }

private:
    template <class Row> Rows<Row> rows(uint32_t (*call)(const opgp_keyring *, const Row **, std::size_t *)) const
    {
        const Row *first = nullptr;
        std::size_t count = 0;
        check(call(get(), &first, &count));
        return Rows<Row>(first, count);
    }

    Keyring made(uint32_t (*call)(const opgp_keyring *, opgp_keyring **)) const
    {
        opgp_keyring *found = nullptr;
        check(call(get(), &found));
        return Keyring(found);
    }

    /* The octets as a string. They are freed, even if there is no memory for it. */
    static std::string text(uint8_t *found, std::size_t size)
    {
        std::unique_ptr<uint8_t, decltype(&std::free)> owned(found, &std::free);
        return std::string(reinterpret_cast<const char *>(found), size);
    }

    std::unique_ptr<opgp_keyring, decltype(&opgp_close)> at;
};

/* Reads a keyring whose octets come in pieces. */
class Reader {
public:
    explicit Reader(const opgp_limits *limits = nullptr) { check(opgp_begin(limits, &handle)); }

    Reader(const Reader &) = delete;
    Reader &operator=(const Reader &) = delete;
    Reader(Reader &&other) noexcept : handle(std::exchange(other.handle, opgp_reader{})) {}

    Reader &operator=(Reader &&other) noexcept
    {
        std::swap(handle, other.handle);
        return *this;
    }

    ~Reader() { opgp_reader_clear(&handle); }

    void push(std::string_view piece)
    {
        check(opgp_reader_push(&handle, reinterpret_cast<const uint8_t *>(piece.data()), piece.size()));
    }

    /* The next part, or none if no part is complete that wasn't taken. */
    std::optional<Keyring> take()
    {
        opgp_keyring *part = nullptr;
        uint32_t status = opgp_take(&handle, &part);
        if (status == OPGP_NO_ROW) {
            return std::nullopt;
        }
        check(status);
        return Keyring(part);
    }

    /* Ends the input. Throws Fault if it is no keyring. */
    void end()
    {
        opgp_fault fault = {};
        uint32_t status = opgp_reader_end(&handle, &fault);
        if (status == OPGP_REFUSED) {
            throw Fault(fault);
        }
        check(status);
    }

private:
    opgp_reader handle = {};
};

/* Signatures over a document, and what each hashes over it. */
class Signatures {
public:
    Signatures(opgp_job *given, std::size_t count, uint8_t *octets)
        : first(given, &std::free), bytes(octets, &std::free), rows(count)
    {
    }
    const opgp_job *begin() const { return first.get(); }
    const opgp_job *end() const { return first.get() + rows; }
    std::size_t size() const { return rows; }
    const opgp_job &operator[](std::size_t number) const { return first.get()[number]; }

    /* A field of what a signature's algorithm made, 0 or 1. */
    std::string_view field(const opgp_job &job, unsigned number) const
    {
        return text(job.at + (number == 1 ? job.sizes[0] : 0), number < 2 ? job.sizes[number] : 0);
    }

    /* The fingerprint or the key ID of its issuer. */
    std::string_view issuer(const opgp_job &job) const { return text(job.at + job.sizes[0] + job.sizes[1], job.issuer_size); }

private:
    std::string_view text(uint64_t at, uint64_t size) const
    {
        return std::string_view(reinterpret_cast<const char *>(bytes.get()) + at, static_cast<std::size_t>(size));
    }

    std::unique_ptr<opgp_job, decltype(&std::free)> first;
    std::unique_ptr<uint8_t, decltype(&std::free)> bytes;
    std::size_t rows;
};

/* Hashes a document, which comes in pieces, for the signatures over it. */
class Document {
public:
    /* Reads the signatures in these octets. Throws Fault if they are refused. */
    explicit Document(std::string_view signatures, const opgp_limits *limits = nullptr, uint32_t mode = OPGP_MODE_AUTO)
    {
        opgp_limits usual;
        opgp_fault fault = {};
        opgp_usual_limits(&usual);
        uint32_t status = opgp_document_open(reinterpret_cast<const uint8_t *>(signatures.data()), signatures.size(), mode,
                                             limits ? limits : &usual, &handle, &fault);
        if (status == OPGP_REFUSED) {
            throw Fault(fault);
        }
        check(status);
    }

    /* Reads a cleartext message (7): the signatures over the document that it has, which goes to text. Judge it before you use that. Throws
     * Fault if the message is refused. */
    static Document cleartext(std::string_view message, std::string &text, const opgp_limits *limits = nullptr)
    {
        opgp_limits usual;
        opgp_fault fault = {};
        Document found;
        uint64_t size = 0;
        std::string made(message.size(), '\0');
        opgp_usual_limits(&usual);
        uint32_t status = opgp_cleartext_open(reinterpret_cast<const uint8_t *>(message.data()), message.size(), limits ? limits : &usual,
                                              reinterpret_cast<uint8_t *>(&made[0]), made.size(), &size, &found.handle, &fault);
        if (status == OPGP_REFUSED) {
            throw Fault(fault);
        }
        check(status);
        made.resize(static_cast<std::size_t>(size));
        text = std::move(made);
        return found;
    }

    Document(const Document &) = delete;
    Document &operator=(const Document &) = delete;
    Document(Document &&other) noexcept : handle(std::exchange(other.handle, opgp_document{})) {}

    Document &operator=(Document &&other) noexcept
    {
        std::swap(handle, other.handle);
        return *this;
    }

    ~Document() { opgp_document_clear(&handle); }

    void push(std::string_view piece)
    {
        check(opgp_document_push(&handle, reinterpret_cast<const uint8_t *>(piece.data()), piece.size()));
    }

    void end() { check(opgp_document_end(&handle)); }

    /* The signatures, once the document has ended; their signers are rows of the keyring's keys. */
    Signatures signatures(const Keyring *keyring = nullptr)
    {
        opgp_job *rows = nullptr;
        uint8_t *bytes = nullptr;
        std::size_t count = 0;
        check(opgp_signatures(&handle, keyring ? keyring->get() : nullptr, &rows, &count, &bytes));
        return Signatures(rows, count, bytes);
    }

    /* Whether each signature is to be believed, once the document has ended, at a present time in seconds since 1970. */
    std::vector<Judgement> judge(const Keyring &keyring, uint64_t now, const Verifier &verify, uint32_t policy = OPGP_POLICY_USUAL)
    {
        Asked asked(verify);
        uint32_t status = opgp_judge(&handle, keyring.get(), policy, now, &Asked::ask, &Asked::tell, &asked);
        asked.check(status);
        return std::move(asked.found);
    }

    /* What the signature of a row hashes in front of the document, or behind it. */
    std::string octets(uint64_t row, bool behind)
    {
        uint64_t size = 0;
        uint32_t status = opgp_document_octets(&handle, row, behind, nullptr, 0, &size);
        if (status == OPGP_ROOM) {
            std::string found(static_cast<std::size_t>(size), '\0');
            check(opgp_document_octets(&handle, row, behind, reinterpret_cast<uint8_t *>(&found[0]), found.size(), &size));
            return found;
        }
        check(status);
        return std::string();
    }

private:
    Document() = default;

    opgp_document handle = {};
};

/* The canonical text of a document that comes in pieces (5.2.1.2). */
class CanonicalText {
public:
    /* Takes the next piece, and returns its text. Throws Fault for a carriage return that no line feed follows, and then takes
     * nothing. */
    std::string push(std::string_view piece)
    {
        opgp_fault fault = {};
        uint64_t size = 0;
        std::string found(2 * piece.size(), '\0');
        uint32_t status = opgp_canonical(&state, reinterpret_cast<const uint8_t *>(piece.data()), piece.size(),
                                         reinterpret_cast<uint8_t *>(&found[0]), found.size(), &size, &fault);
        if (status == OPGP_REFUSED) {
            throw Fault(fault);
        }
        check(status);
        found.resize(static_cast<std::size_t>(size));
        return found;
    }

    /* Ends the document. Throws Fault if it ends in a carriage return. */
    void end() const
    {
        opgp_fault fault = {};
        if (opgp_canonical_end(&state, &fault) == OPGP_REFUSED) {
            throw Fault(fault);
        }
    }

private:
    opgp_text state = {};
};

/* An armored block in a text: where it is there, and its cleaned octets. */
struct FoundBlock {
    std::size_t at, size;
    std::string octets;
};

/* The armored blocks in a text as mail programs meet it. */
inline std::vector<FoundBlock> find_blocks(std::string_view text)
{
    const uint8_t *in = reinterpret_cast<const uint8_t *>(text.data());
    std::vector<opgp_found_block> rows;
    std::string octets(text.size() + 1, '\0');
    opgp_sizes sizes = {};
    uint32_t status = OPGP_ROOM;
    while (status == OPGP_ROOM) {
        rows.resize(static_cast<std::size_t>(sizes.rows));
        status = opgp_find_blocks(in, text.size(), rows.data(), rows.size(), reinterpret_cast<uint8_t *>(&octets[0]), octets.size(),
                                  &sizes);
    }
    check(status);
    std::vector<FoundBlock> found;
    for (const opgp_found_block &row : rows) {
        found.push_back({static_cast<std::size_t>(row.at), static_cast<std::size_t>(row.size),
                         octets.substr(static_cast<std::size_t>(row.octets_at), static_cast<std::size_t>(row.octets_size))});
    }
    return found;
}

/* What the octets of a user ID say (5.11): whether they are UTF-8, and their mail address, which is a part of them. */
struct UserIdFacts {
    bool is_utf8;
    std::optional<std::string_view> address;
};

inline UserIdFacts user_id(std::string_view octets)
{
    opgp_user_id_facts facts = {};
    opgp_user_id(reinterpret_cast<const uint8_t *>(octets.data()), octets.size(), &facts);
    UserIdFacts found = {facts.is_utf8 != 0, std::nullopt};
    if (facts.has_address) {
        found.address = octets.substr(static_cast<std::size_t>(facts.address_at), static_cast<std::size_t>(facts.address_size));
    }
    return found;
}

} // namespace opgp

#endif
