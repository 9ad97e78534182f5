-- servers_postgres.sql: scenes over two servers, where one machine is not enough. The rows of a partitioned table lie on the two, and each asks the library about its own: postgres_fdw sends a call there
-- where no text is in it, so the cells are asked for as nine bits (karvoiss_bits). The extension must be installed on each server, in the same schema.
--
--     psql -v first=HOST -v second=HOST -f servers_postgres.sql      the hosts, or the folders of the servers' sockets

create extension karvoiss;
create extension postgres_fdw;

create server first foreign data wrapper postgres_fdw options (host :'first', dbname 'postgres', extensions 'karvoiss', async_capable 'true');
create server second foreign data wrapper postgres_fdw options (host :'second', dbname 'postgres', extensions 'karvoiss', async_capable 'true');
create user mapping for current_user server first options (user :'USER');
create user mapping for current_user server second options (user :'USER');

-- on each of the two: create extension karvoiss; create table pair (id integer, scene bytea);
create table pair (id integer, scene bytea) partition by hash (id);
create foreign table pair_first partition of pair for values with (modulus 2, remainder 0) server first options (table_name 'pair');
create foreign table pair_second partition of pair for values with (modulus 2, remainder 1) server second options (table_name 'pair');
