// The transfers of embedded_shared in SQLite and in RocksDB, for tools/bench_threads.py.
//
//     bench_threads sqlite|rocksdb PATH CLIENTS TRANSFERS
//
// Each client is a thread. It makes so many transfers, each in a transaction of its own, which is on the disk before it is answered: SQLite with a
// write-ahead log and synchronous=FULL, RocksDB with pessimistic transactions and a synced write. A transfer that meets another one starts over.
// The program prints how many transfers there are, and the sum of all accounts.
#include <rocksdb/utilities/transaction_db.h>
#include <sqlite3.h>

#include <cstdio>
#include <cstdlib>
#include <cstring>
#include <functional>
#include <string>
#include <thread>
#include <vector>

constexpr long accounts = 500;
constexpr long stride = 15;

[[noreturn]] void stop(const char *what) {
    std::fprintf(stderr, "%s\n", what);
    std::exit(1);
}

void in_threads(long clients, const std::function<void(long)> &client) {
    std::vector<std::thread> threads;
    for (long session = 1; session <= clients; session++) {
        threads.emplace_back(client, session);
    }
    for (std::thread &it : threads) {
        it.join();
    }
}

// ---- SQLite

int nothing(void *, int, char **, char **) { return 0; }

void must(sqlite3 *bank, const char *text) {
    if (sqlite3_exec(bank, text, nothing, nullptr, nullptr) != SQLITE_OK) {
        stop(sqlite3_errmsg(bank));
    }
}

sqlite3 *open_sqlite(const char *path) {
    sqlite3 *bank = nullptr;
    if (sqlite3_open(path, &bank) != SQLITE_OK) {
        stop("not opened");
    }
    sqlite3_busy_timeout(bank, 60'000);
    must(bank, "PRAGMA journal_mode=WAL");
    must(bank, "PRAGMA synchronous=FULL");
    return bank;
}

long number_of(sqlite3 *bank, sqlite3_stmt *query, long key) {
    long number = 0;
    sqlite3_bind_int64(query, 1, key);
    int status = sqlite3_step(query);
    if (status == SQLITE_ROW) {
        number = sqlite3_column_int64(query, 0);
    } else if (status != SQLITE_DONE) {
        stop(sqlite3_errmsg(bank));
    }
    sqlite3_reset(query);
    return number;
}

void put(sqlite3 *bank, sqlite3_stmt *query, long key, long value) {
    sqlite3_bind_int64(query, 1, key);
    sqlite3_bind_int64(query, 2, value);
    if (sqlite3_step(query) != SQLITE_DONE) {
        stop(sqlite3_errmsg(bank));
    }
    sqlite3_reset(query);
}

sqlite3_stmt *prepared(sqlite3 *bank, const char *text) {
    sqlite3_stmt *query = nullptr;
    if (sqlite3_prepare_v2(bank, text, -1, &query, nullptr) != SQLITE_OK) {
        stop(sqlite3_errmsg(bank));
    }
    return query;
}

void sqlite_client(const char *path, long session, long count) {
    sqlite3 *bank = open_sqlite(path);
    sqlite3_stmt *account = prepared(bank, "SELECT value FROM account WHERE key = ?");
    sqlite3_stmt *put_account = prepared(bank, "INSERT OR REPLACE INTO account VALUES (?, ?)");
    sqlite3_stmt *made = prepared(bank, "SELECT value FROM transfers WHERE key = ?");
    sqlite3_stmt *put_made = prepared(bank, "INSERT OR REPLACE INTO transfers VALUES (?, ?)");
    for (long i = 0; i < count; i++) {
        // (the one writer at a time that SQLite has: it waits here for the others)
        must(bank, "BEGIN IMMEDIATE");
        long number = number_of(bank, made, session) + 1;
        put(bank, put_made, session, number);
        for (auto [place, amount] : {std::pair{session * stride, -1L}, std::pair{session * stride + number, 1L}}) {
            put(bank, put_account, place % accounts, number_of(bank, account, place % accounts) + amount);
        }
        must(bank, "COMMIT");
    }
    for (sqlite3_stmt *it : {account, put_account, made, put_made}) {
        sqlite3_finalize(it);
    }
    sqlite3_close(bank);
}

void run_sqlite(const char *path, long clients, long count) {
    sqlite3 *bank = open_sqlite(path);
    must(bank, "CREATE TABLE IF NOT EXISTS account (key INTEGER PRIMARY KEY, value INTEGER)");
    must(bank, "CREATE TABLE IF NOT EXISTS transfers (key INTEGER PRIMARY KEY, value INTEGER)");
    in_threads(clients, [&](long session) { sqlite_client(path, session, count); });
    sqlite3_stmt *made = prepared(bank, "SELECT total(value) FROM transfers WHERE key > ?");
    sqlite3_stmt *sum = prepared(bank, "SELECT total(value) FROM account WHERE key >= ?");
    std::printf("%ld transfers, and %ld in all accounts\n", number_of(bank, made, 0), number_of(bank, sum, 0));
    sqlite3_finalize(made);
    sqlite3_finalize(sum);
    sqlite3_close(bank);
}

// ---- RocksDB

std::string row(char table, long key) { return table + std::to_string(key); }

// Adds an amount to a row; false if another transaction is in the way.
bool add(rocksdb::Transaction *txn, const std::string &key, long amount, long *value) {
    std::string text;
    rocksdb::Status status = txn->GetForUpdate({}, key, &text);
    if (!status.ok() && !status.IsNotFound()) {
        return false;
    }
    *value = (status.ok() ? std::stol(text) : 0) + amount;
    return txn->Put(key, std::to_string(*value)).ok();
}

bool transfer(rocksdb::Transaction *txn, long session) {
    long number = 0, balance = 0;
    return add(txn, row('t', session), 1, &number) && add(txn, row('a', session * stride % accounts), -1, &balance) &&
           add(txn, row('a', (session * stride + number) % accounts), 1, &balance) && txn->Commit().ok();
}

void rocksdb_client(rocksdb::TransactionDB *bank, long session, long count) {
    rocksdb::WriteOptions synced;
    synced.sync = true;
    for (long i = 0; i < count;) {
        rocksdb::Transaction *txn = bank->BeginTransaction(synced);
        if (transfer(txn, session)) {
            i++;
        } else {
            txn->Rollback();
        }
        delete txn;
    }
}

void run_rocksdb(const char *path, long clients, long count) {
    rocksdb::Options options;
    options.create_if_missing = true;
    rocksdb::TransactionDB *bank = nullptr;
    if (!rocksdb::TransactionDB::Open(options, {}, path, &bank).ok()) {
        stop("not opened");
    }
    in_threads(clients, [&](long session) { rocksdb_client(bank, session, count); });
    long made = 0, sum = 0;
    rocksdb::Iterator *rows = bank->NewIterator({});
    for (rows->SeekToFirst(); rows->Valid(); rows->Next()) {
        (rows->key()[0] == 't' ? made : sum) += std::stol(rows->value().ToString());
    }
    delete rows;
    std::printf("%ld transfers, and %ld in all accounts\n", made, sum);
    delete bank;
}

int main(int count, char **words) {
    if (count != 5) {
        stop("usage: bench_threads sqlite|rocksdb PATH CLIENTS TRANSFERS");
    }
    auto run = std::strcmp(words[1], "sqlite") == 0 ? run_sqlite : run_rocksdb;
    run(words[2], std::atol(words[3]), std::atol(words[4]));
}
