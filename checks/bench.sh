#!/usr/bin/env bash
# Times the program over a generated case, and the same work in SQLite where `sqlite3` is there: a load, nine changes in a
# process each and in one, a query for one value, and the dump of a relation. It checks nothing, and is not part of the gate.
# usage: checks/bench.sh [N [PROGRAM]]     N employees, 2 N tasks; 50,000 where it is left out
set -eu
cd "$(dirname "$0")/.."
n=${1:-50000}
whc=${2:-$PWD/crates/whc/out/whc}
dir=$(mktemp -d)
trap 'rm -rf "$dir"' EXIT
mkdir "$dir/dumps" "$dir/store" "$dir/whole"

# The case that `make 3 N` loads and changes, as files, and each change as SQL.
cat >"$dir/spec.txt" <<'SPEC'
relation Dept(dept int, site text) key (dept);
relation Emp(emp int, dept int, pay int) key (emp);
relation Task(task int, emp int, hours int) key (task);
inclusion Emp(dept) in Dept(dept);
inclusion Task(emp) in Emp(emp);
view Staff = Emp join Dept;
view Work(task, emp, hours, dept) = Task join Emp where hours > 10;
SPEC
awk -v n="$n" -v dir="$dir" 'BEGIN {
    q = 3; d = int(n / 10) + 1; OFS = ","
    print "dept", "site" > (dir "/dumps/Dept.csv")
    for (i = 0; i < d; i++) print i, "s" (i + q) % 7 > (dir "/dumps/Dept.csv")
    print "emp", "dept", "pay" > (dir "/dumps/Emp.csv")
    for (i = 0; i < n; i++) print i, (i * (q + 1)) % d, 1000 + (i + q) % 500 > (dir "/dumps/Emp.csv")
    print "task", "emp", "hours" > (dir "/dumps/Task.csv")
    for (i = 0; i < 2 * n; i++) print i, (i + q) % n, (3 * i + q) % 40 > (dir "/dumps/Task.csv")
    for (c = 1; c < 10; c++) {
        file = dir "/change-" c
        print "PRAGMA foreign_keys=ON; PRAGMA synchronous=FULL; BEGIN;" > (file ".sql")
        for (j = 0; j < d; j++) {
            t = 2 * n + (c - 1) * d + j; u = (c - 1) * d + j
            print "+", "Task", t, t % n, (t + q) % 40 > file
            print "-", "Task", u, (u + q) % n, (3 * u + q) % 40 > file
            print "INSERT OR IGNORE INTO Task VALUES (" t "," t % n "," (t + q) % 40 "); DELETE FROM Task WHERE task=" u ";" > (file ".sql")
        }
        print "COMMIT;" > (file ".sql")
    }
}'

# Tables for the relations, and tables for the views that triggers keep.
cat >"$dir/schema.sql" <<'SQL'
PRAGMA journal_mode=WAL; PRAGMA synchronous=FULL; PRAGMA foreign_keys=ON;
CREATE TABLE Dept(dept INTEGER PRIMARY KEY, site TEXT NOT NULL);
CREATE TABLE Emp(emp INTEGER PRIMARY KEY, dept INTEGER NOT NULL REFERENCES Dept(dept), pay INTEGER NOT NULL);
CREATE TABLE Task(task INTEGER PRIMARY KEY, emp INTEGER NOT NULL REFERENCES Emp(emp), hours INTEGER NOT NULL);
CREATE INDEX Emp_dept ON Emp(dept); CREATE INDEX Task_emp ON Task(emp);
SQL
cat >"$dir/views.sql" <<'SQL'
CREATE TABLE Staff AS SELECT emp, Emp.dept AS dept, pay, site FROM Emp JOIN Dept USING (dept);
CREATE TABLE Work AS SELECT task, Task.emp AS emp, hours, dept FROM Task JOIN Emp USING (emp) WHERE hours > 10;
CREATE UNIQUE INDEX Work_task ON Work(task); CREATE INDEX Work_emp ON Work(emp);
CREATE TRIGGER task_in AFTER INSERT ON Task WHEN new.hours > 10 BEGIN INSERT INTO Work SELECT new.task, new.emp, new.hours, dept FROM Emp WHERE emp = new.emp; END;
CREATE TRIGGER task_out AFTER DELETE ON Task BEGIN DELETE FROM Work WHERE task = old.task; END;
SQL

# The seconds of a command by the clock.
seconds() {
    local from to
    from=$(date +%s.%N)
    "$@" >/dev/null
    to=$(date +%s.%N)
    awk -v from="$from" -v to="$to" 'BEGIN { printf "%.3f", to - from }'
}
row() { printf '%-28s %10s %10s\n' "$@"; }
each() { for c in 1 2 3 4 5 6 7 8 9; do "$@" "$dir/change-$c"; done; }

db=$dir/peer.db
sqlite_load() {
    sqlite3 "$db" <"$dir/schema.sql"
    sqlite3 "$db" "PRAGMA foreign_keys=ON" ".mode csv" ".import --skip 1 $dir/dumps/Dept.csv Dept" ".import --skip 1 $dir/dumps/Emp.csv Emp" ".import --skip 1 $dir/dumps/Task.csv Task"
    sqlite3 "$db" <"$dir/views.sql"
}
sqlite_change() { sqlite3 "$db" <"$1.sql"; }
peer() { if command -v sqlite3 >/dev/null; then seconds "$@"; else echo -; fi; }

row "n = $n, seconds" whc sqlite3
row load "$(seconds "$whc" "$dir/store" load "$dir/spec.txt" "$dir/dumps")" "$(peer sqlite_load)"
row "query for one value" "$(seconds "$whc" "$dir/store" query 'select (emp = 17) Work')" "$(peer sqlite3 "$db" 'SELECT * FROM Work WHERE emp = 17')"
row "nine changes, a process each" "$(seconds each "$whc" "$dir/store" refresh)" "$(peer each sqlite_change)"
"$whc" "$dir/whole" load "$dir/spec.txt" "$dir/dumps" >/dev/null
row "nine changes, one process" "$(cd "$dir" && seconds "$whc" whole refresh change-1 change-2 change-3 change-4 change-5 change-6 change-7 change-8 change-9)" -
row "query behind the changes" "$(seconds "$whc" "$dir/store" query 'select (emp = 17) Work')" "$(peer sqlite3 "$db" 'SELECT * FROM Work WHERE emp = 17')"
row "dump of $((2 * n)) rows" "$(seconds "$whc" "$dir/store" dump Task)" "$(peer sqlite3 -csv "$db" 'SELECT * FROM Task ORDER BY task')"
row "bytes of the files" "$(cat "$dir"/store/*.wh | wc -c)" "$(cat "$db"* 2>/dev/null | wc -c)"
