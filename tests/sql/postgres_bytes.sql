-- Every function of the extension, as the server's own list has them, with any bytes: it answers or refuses with a number, and nothing else happens. Then null in each argument gives null.
create function number_bytes(number integer) returns bytea language sql immutable as $$ select decode(lpad(to_hex(number), 8, '0'), 'hex') $$;

-- a line as well-known binary, as an object, its summary, and the scene of it beside itself
create table good (scene bytea, wkb bytea, object bytea, summary bytea);
insert into good (wkb) values ('\x0000000005000000010000000002000000023ff0000000000000400000000000000040080000000000004010000000000000');
update good set object = karvoiss_object(wkb);
update good set summary = karvoiss_summary(object), scene = karvoiss_scene(object, object);

create table noise as
    select string_agg(decode(md5(i::text), 'hex'), '') as bytes from generate_series(1, 62500) as i;

create table hostile (about text, bytes bytea);
insert into hostile select 'empty', '';
insert into hostile select format('a scene cut to %s bytes', n), substr(scene, 1, n) from good, generate_series(1, length(scene) - 1) as n;
insert into hostile select format('well-known binary cut to %s bytes', n), substr(wkb, 1, n) from good, generate_series(1, length(wkb) - 1) as n;
insert into hostile select format('a summary cut to %s bytes', n), substr(summary, 1, n) from good, generate_series(1, 19) as n;
insert into hostile select format('a scene with another byte %s', n), set_byte(scene, n, (get_byte(scene, n) + 1) % 256) from good, generate_series(0, length(scene) - 1) as n;
insert into hostile select format('well-known binary with another byte %s', n), set_byte(wkb, n, (get_byte(wkb, n) + 1) % 256) from good, generate_series(0, length(wkb) - 1) as n;
insert into hostile select format('a summary with another byte %s', n), set_byte(summary, n, (get_byte(summary, n) + 1) % 256) from good, generate_series(0, 19) as n;
insert into hostile select format('%s random bytes', n), substr(bytes, 16 * n, n) from noise, generate_series(1, 300) as n;
insert into hostile select 'a million zeros', decode(repeat('00', 1000000), 'hex');
insert into hostile select 'a million random bytes', bytes from noise;
insert into hostile select 'a scene and a million bytes', scene || bytes from good, noise;
insert into hostile select 'a type record and a million bytes of points', '\x5401'::bytea || decode(repeat('500000000000000000', 111111), 'hex');
insert into hostile select 'a million bytes as points', '\x0000000004'::bytea || number_bytes(47618) || decode(repeat('00000000013ff00000000000004000000000000000', 47618), 'hex');
insert into hostile select 'a million bytes as one line', '\x0000000005000000010000000002'::bytea || number_bytes(62500) || decode(repeat('3ff00000000000004000000000000000', 62500), 'hex');
insert into hostile select 'a million bytes as rings of four points', '\x0000000006000000010000000003'::bytea || number_bytes(14705)
    || decode(repeat('00000004' || repeat('3ff00000000000004000000000000000', 4), 14705), 'hex');
insert into hostile select 'as many lines as fit no memory', '\x0000000005ffffffff'::bytea || decode(repeat('00000000020000000200000000000000000000000000000000', 3), 'hex');

-- what may stand in the argument of a type, beside hostile bytes: taken in turn
create table other (type oid, value text);
insert into other select 'text'::regtype, unnest(array['T********', '', 'T', 'TTTTTTTTTT', repeat('*', 1000000), 'T*F**FÄ*', 'é********']);
insert into other select 'integer'::regtype, unnest(array['0', '1', '-1', '-2147483648', '2147483647', '65535', '65536']);

create table calls as
    select oid::regprocedure::text as signature, proname::text as name, proargtypes::oid[] as types from pg_proc where proname like 'karvoiss\_%' and pronamespace = 'public'::regnamespace;

-- the call of a function with literals of its types
create function call_of(name text, types oid[], arguments text[]) returns text language sql immutable as $$
    select format('select %I(%s)::text', name, string_agg(format('%L::%s', arguments[k], format_type(types[k - 1], null)), ', ' order by k)) from generate_subscripts(arguments, 1) as k
$$;

-- the SQLSTATE, 00000 for a value
create function outcome(name text, types oid[], first bytea, second bytea, other text) returns text language plpgsql as $$
declare
    state text;
    arguments text := '';
begin
    for k in 0 .. cardinality(types) - 1 loop
        arguments := arguments || case when k > 0 then ', ' else '' end
            || case when types[k] = 'bytea'::regtype then case when k = 0 then '$1' else '$2' end else '$3::' || format_type(types[k], null) end;
    end loop;
    execute format('select %I(%s)::text', name, arguments) using first, second, other;
    return '00000';
exception when others then
    get stacked diagnostics state = returned_sqlstate;
    return state;
end $$;

create table outcomes as
    select calls.signature, hostile.about, other, outcome(name, types, hostile.bytes, pair.second, other) as state
    from calls, hostile, lateral (select hostile.bytes as second union all select scene from good where types[1] = 'bytea'::regtype and length(hostile.bytes) < 1000) as pair,
        lateral (select value as other from other where type = any (types) and type <> 'bytea'::regtype and (length(hostile.bytes) < 1000 or value <> repeat('*', 1000000))
            union all select null where not exists (select from other where type = any (types))) as third;
insert into outcomes
    select calls.signature, hostile.about, null, outcome(name, types, scene, hostile.bytes, null) from calls, hostile, good where types[1] = 'bytea'::regtype;

do $do$
declare
    wrong record;
begin
    for wrong in select * from outcomes where state <> '00000' and state not like '22K__' limit 10 loop
        raise warning '% of % (%): %', wrong.signature, wrong.about, left(wrong.other, 20), wrong.state;
    end loop;
    if found then raise exception 'a call ends otherwise than with an answer or a refusal'; end if;
    for wrong in select * from outcomes where signature like '%\_try\_%' and state <> '00000' limit 10 loop
        raise warning '% of %: %', wrong.signature, wrong.about, wrong.state;
    end loop;
    if found then raise exception 'a try_ form raises an error'; end if;
    if (select count(*) from calls) < 60 or (select count(distinct signature) from outcomes) <> (select count(*) from calls) then raise exception 'a function was not called'; end if;
end $do$;

-- null in one argument, and good values in the others
do $do$
declare
    call record;
    arguments text[];
    answer text;
    good_of constant jsonb := '{"bytea": "", "text": "T********", "integer": "1"}';
begin
    for call in select * from calls loop
        for k in 1 .. cardinality(call.types) loop
            arguments := array(select good_of ->> format_type(t, null) from unnest(call.types) as t);
            arguments[k] := null;
            execute call_of(call.name, call.types, arguments) into answer;
            if answer is not null then raise exception '% of null is %', call.signature, answer; end if;
        end loop;
    end loop;
    -- and each is immutable, strict and parallel safe, as the planner sees it, with a cost that is not the server's default
    if exists (select from pg_proc where proname like 'karvoiss\_%' and (provolatile <> 'i' or not proisstrict or proparallel <> 's' or procost = 1)) then
        raise exception 'a function is not declared as it should be';
    end if;
end $do$;

-- other types than bytea are not read as bytes
do $do$
declare
    wrong text;
begin
    foreach wrong in array array['karvoiss_cells(1)', 'karvoiss_cells(''T''::text)', 'karvoiss_cells(1.5)', 'karvoiss_relate(''''::bytea, 1)', 'karvoiss_words(''1''::text)', 'karvoiss_far(''''::bytea, 2)'] loop
        begin
            execute 'select ' || wrong;
            raise exception '% is taken', wrong;
        exception when undefined_function then
        end;
    end loop;
end $do$;

select format('bytes: %s functions, %s calls with %s byte strings, %s refused', (select count(*) from calls), count(*), (select count(*) from hostile), count(*) filter (where state like '22K%')) from outcomes;
