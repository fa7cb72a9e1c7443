/* sqlite: a database in memory, with joins, windows, JSON, a transaction that is undone, and errors. */
#include <stdio.h>
#include "sqlite3.h"

static const char *const statements[] = {
    "create table t(id integer primary key, name text, x real); create index i on t(name);",
    "with recursive c(n) as (select 1 union all select n+1 from c where n<60) insert into t select n, 'name'||(n*7%31), n*0.37 "
    "from c;",
    "select count(*), sum(x), avg(id), min(name), max(name) from t;",
    "select name, count(*) k, round(sum(x),3) from t group by name order by k desc, name limit 5;",
    "select a.id, b.id from t a join t b on a.name=b.name and a.id<b.id order by 1,2 limit 5;",
    "begin; delete from t where id%3=0; update t set x=x*2 where id<20; rollback; select count(*), total(x) from t;",
    "select id, sum(x) over (order by id rows 2 preceding) from t limit 4;",
    "select printf('%08.3f|%x|%s', 3.14159, 255, 'q'), hex('abc'), upper('x'), substr('hello',2,3), 1e308*10, 9223372036854775807;",
    "select json_extract('{\"a\":[1,2,{\"b\":3.5}]}','$.a[2].b'), strftime('%Y-%m-%d', 86400, 'unixepoch');",
    "insert into t values(1,'dup',0); select * from nowhere;",
    "create table f(a); insert into f values(1.5),(2),('z'),(x'00ff'),(null); select typeof(a), quote(a) from f;",
    "pragma integrity_check;",
};

static int print_row(void *context, int count, char **values, char **names)
{
    (void)context, (void)names;
    for (int i = 0; i < count; i++)
        printf("%s%s", i > 0 ? "|" : "", values[i] != NULL ? values[i] : "NULL");
    printf("\n");
    return 0;
}

int main(void)
{
    sqlite3 *database;
    printf("%s\n", sqlite3_libversion());
    if (sqlite3_open(":memory:", &database) != SQLITE_OK) {
        printf("open: %s\n", sqlite3_errmsg(database));
        return 1;
    }
    for (size_t i = 0; i < sizeof statements / sizeof *statements; i++) {
        char *error = NULL;
        if (sqlite3_exec(database, statements[i], print_row, NULL, &error) != SQLITE_OK)
            printf("error: %s\n", error);
        sqlite3_free(error);
    }
    sqlite3_close(database);
    printf("memory %lld\n", (long long)sqlite3_memory_used());
    return 0;
}
