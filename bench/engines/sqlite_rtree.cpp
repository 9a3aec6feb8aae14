// SQLite's R*Tree, in memory, with prepared statements.
#include "../engine.hpp"
#include "../fail.hpp"

#include <bitset>
#include <initializer_list>

#include <sqlite3.h>

namespace {

class Statement {
public:
    Statement(sqlite3 *base, const char *text)
    {
        if (sqlite3_prepare_v3(base, text, -1, SQLITE_PREPARE_PERSISTENT, &statement, nullptr) != SQLITE_OK)
            fail(std::string("sqlite-rtree: ") + sqlite3_errmsg(base));
    }
    Statement(const Statement &) = delete;
    ~Statement() { sqlite3_finalize(statement); }

    void bind(std::initializer_list<int> values)
    {
        int place = 0;
        for (int value : values)
            sqlite3_bind_int(statement, ++place, value);
    }

    // Whether there is another row. After the last the statement is ready to be bound again.
    bool next()
    {
        int status = sqlite3_step(statement);
        if (status == SQLITE_ROW)
            return true;
        reset();
        if (status != SQLITE_DONE)
            fail(std::string("sqlite-rtree: ") + sqlite3_errstr(status));
        return false;
    }

    void reset() { sqlite3_reset(statement); }
    int column(int place) { return sqlite3_column_int(statement, place); }
    uint16_t word(int place) { return static_cast<uint16_t>(column(place)); }

private:
    sqlite3_stmt *statement = nullptr;
};

class Database {
public:
    explicit Database(const char *schema)
    {
        if (sqlite3_open(":memory:", &base) != SQLITE_OK || sqlite3_exec(base, schema, nullptr, nullptr, nullptr) != SQLITE_OK)
            fail(std::string("sqlite-rtree: ") + sqlite3_errmsg(base));
    }
    Database(const Database &) = delete;
    ~Database() { sqlite3_close(base); }
    operator sqlite3 *() { return base; }

private:
    sqlite3 *base = nullptr;
};

const char *const SCHEMA = "PRAGMA journal_mode = OFF; PRAGMA synchronous = OFF; PRAGMA locking_mode = EXCLUSIVE;"
                           "CREATE VIRTUAL TABLE grants USING rtree_i32(number, staff_from, staff_to, doors_from, doors_to,"
                           " quarters_from, quarters_to, +rank INTEGER, +kind INTEGER)";

// Beside the table, which numbers are live.
class SqliteRtree : public Engine {
public:
    const char *name() const override { return "sqlite-rtree"; }

    void start(size_t capacity) override
    {
        all_gone.bind({});
        all_gone.next();
        live.reset();
        count = 0;
        most = capacity;
    }

    unsigned grant(const Grant &grant) override
    {
        if (live[grant.number])
            return 5;
        if (count == most)
            return 6;
        const Box &box = grant.box;
        added.bind({grant.number, box.staff.from, box.staff.to, box.doors.from, box.doors.to, box.quarters.from, box.quarters.to,
                    grant.rank, grant.kind});
        added.next();
        live[grant.number] = true;
        count++;
        return 0;
    }

    unsigned revoke(uint16_t number) override
    {
        if (!live[number])
            return 7;
        gone.bind({number});
        gone.next();
        live[number] = false;
        count--;
        return 0;
    }

    bool decide(Point point, Grant &deciding) override
    {
        decider.bind({point.staff, point.door, point.quarter});
        if (!decider.next())
            return false;
        deciding = {decider.word(0), static_cast<uint8_t>(decider.column(1)), static_cast<uint8_t>(decider.column(2)),
                    {{decider.word(3), decider.word(4)}, {decider.word(5), decider.word(6)}, {decider.word(7), decider.word(8)}}};
        decider.reset();
        return true;
    }

    size_t list(const Box &box, uint16_t *numbers) override
    {
        overlapping.bind({box.staff.from, box.staff.to, box.doors.from, box.doors.to, box.quarters.from, box.quarters.to});
        size_t found = 0;
        while (overlapping.next())
            numbers[found++] = overlapping.word(0);
        return found;
    }

private:
    Database base{SCHEMA};
    Statement all_gone{base, "DELETE FROM grants"};
    Statement added{base, "INSERT INTO grants VALUES (?1, ?2, ?3, ?4, ?5, ?6, ?7, ?8, ?9)"};
    Statement gone{base, "DELETE FROM grants WHERE number = ?1"};
    Statement decider{base, "SELECT number, rank, kind, staff_from, staff_to, doors_from, doors_to, quarters_from, quarters_to"
                            " FROM grants WHERE staff_from <= ?1 AND staff_to >= ?1 AND doors_from <= ?2 AND doors_to >= ?2"
                            " AND quarters_from <= ?3 AND quarters_to > ?3 ORDER BY rank DESC, number DESC LIMIT 1"};
    Statement overlapping{base, "SELECT number FROM grants WHERE staff_from <= ?2 AND staff_to >= ?1 AND doors_from <= ?4"
                                " AND doors_to >= ?3 AND quarters_from < ?6 AND quarters_to > ?5 ORDER BY number"};
    std::bitset<65536> live;
    size_t count = 0, most = 0;
};

} // namespace

std::unique_ptr<Engine> make_sqlite_rtree()
{
    return std::make_unique<SqliteRtree>();
}
