-- Over two servers (examples/servers_postgres.sql has made the tables): the answers are those of one server, the integer form is asked there and not here, and a refusal comes through whole.
-- Wants the variable file, the inputs of postgres_answers.sql.
create table asked (id bigint primary key, at integer, bytes bytea, expected text[]);
copy asked from :'file';
insert into pair select id, bytes from asked where expected[1] not like '22K%' limit 4000;

create function plan_of(query text) returns text language plpgsql as $$
declare
    line text;
    plan text := '';
begin
    for line in execute 'explain (verbose, costs off) ' || query loop plan := plan || line || chr(10); end loop;
    return plan;
end $$;

do $do$
declare
    plan constant text := plan_of('select count(*) from pair where karvoiss_bits(scene) & 1 <> 0');
    state text;
    detail text;
begin
    if plan not like '%Remote SQL:%karvoiss_bits(scene) & 1%Remote SQL:%karvoiss_bits(scene) & 1%' then raise exception 'the call is not sent to both servers: %', plan; end if;
    if plan not like '%Async Foreign Scan%' then raise exception 'the servers are not asked at once: %', plan; end if;
    if (select count(*) from pair_first) < 1000 or (select count(*) from pair_second) < 1000 then raise exception 'a server has hardly a row'; end if;
    if (select count(*) from pair where karvoiss_bits(scene) & 1 <> 0)
        is distinct from (select count(*) from pair join asked using (id) where left(expected[1], 1) <> 'F') then
        raise exception 'another answer than one server has';
    end if;
    if exists (select from pair join asked using (id) where karvoiss_bits(scene)::text <> expected[2]) then raise exception 'other bits than one server has'; end if;
    -- one bad scene on the second server
    insert into pair_second select id, '\x540150' from generate_series(5000, 100000) as id where satisfies_hash_partition('pair'::regclass, 2, 1, id::integer) limit 1;
    begin
        perform count(*) from pair where karvoiss_bits(scene) & 1 <> 0;
        raise exception 'a refusal on the other server is not seen';
    exception when sqlstate '22K01' then
        get stacked diagnostics detail = pg_exception_detail;
        if detail <> 'Refusal 1 at byte 2 of the scene.' then raise exception 'another detail: %', detail; end if;
    end;
end $do$;

select format('servers: %s scenes on one and %s on the other, the integer form sent to both', (select count(*) from pair_first), (select count(*) from pair_second));
