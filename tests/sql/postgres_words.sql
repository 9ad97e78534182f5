-- What an error says: SQLSTATE by number, message, number and place in DETAIL, what to do in HINT. What is not taken of well-known binary as PostGIS has it. And the stack: where too little is left the
-- server's own error, and no crash.
create function error_of(query text) returns text language plpgsql as $$
declare
    state text;
    message text;
    detail text;
    hint text;
begin
    execute query;
    return 'none';
exception when others then
    get stacked diagnostics state = returned_sqlstate, message = message_text, detail = pg_exception_detail, hint = pg_exception_hint;
    return concat_ws(' | ', state, message, detail, hint);
end $$;

create function expect(query text, expected text) returns void language plpgsql as $$
declare
    found constant text := error_of(query);
begin
    if found is distinct from expected then raise exception '%: % instead of %', query, found, expected; end if;
end $$;

do $do$
begin
    perform expect($$select karvoiss_cells('')$$, '22K01 | the bytes end before a record or inside it | Refusal 1 at byte 0 of the scene. | Objects are made by karvoiss_object of well-known binary, and scenes by karvoiss_scene of two objects.');
    perform expect($$select karvoiss_relate('\x540145540145', 'T*F')$$, '22K22 | the pattern has not nine characters | Refusal 22. | A pattern has one for each cell, row by row.');
    perform expect($$select karvoiss_relate('\x540145540145', 'T*t******')$$, '22K23 | a character of the pattern is none of T, F, *, 0, 1, 2 | Refusal 23 at character 2 of the pattern. | T and F are capital letters.');
    perform expect($$select karvoiss_far('', '')$$, '22K18 | a bad summary | Refusal 18 of summary 0. | Summaries are made by karvoiss_summary of an object.');
    perform expect($$select karvoiss_area_both('\x540145540345')$$, '22K16 | an object is not a region | Refusal 16 at byte 0 of the scene. | Areas are those of two regions.');
    perform expect($$select karvoiss_object('\x000000000400000001' || '\x0000000001'::bytea || float8send(0.5) || float8send(1))$$,
        '22K25 | a coordinate is not a whole number in -10000000 to 10000000: 0.5 | Refusal 25 at byte 14 of the well-known binary. | Scale the shapes, and round them to whole numbers.');
end $do$;

-- single kinds, Z by number and by flag, a SRID by flag
do $do$
declare
    type text;
begin
    foreach type in array array['00000001', '00000002', '00000003', '00000007', '000003ec', '000003ed', '80000004', '40000004', '20000004', '20000006'] loop
        if error_of(format('select karvoiss_object(%L)', '\x00' || type || '00000000')) not like '22K24 |% Refusal 24 at byte 1 of the well-known binary. |%ST_AsBinary(ST_Multi(ST_Force2D(g)))%' then
            raise exception 'type % of well-known binary: %', type, error_of(format('select karvoiss_object(%L)', '\x00' || type || '00000000'));
        end if;
    end loop;
end $do$;

do $do$
begin
    if karvoiss_words(13) <> 'an end of a region belongs to an odd number of its segments' or karvoiss_words(0) is not null or karvoiss_words(8) is not null or karvoiss_words(29) is not null
        or karvoiss_words(-1) is not null then
        raise exception 'the words of a refusal are others';
    end if;
end $do$;

-- 100 kB are enough for what is asked of a scene, and too little for reading and splitting
set max_stack_depth = '100kB';
do $do$
begin
    perform expect($$select karvoiss_cells('\x540145540145')$$, 'none');
end $do$;
do $do$
begin
    if error_of($$select karvoiss_object('\x000000000400000000')$$) not like '54001 |%' or error_of($$select karvoiss_split('\x540145540145')$$) not like '54001 |%'
        or error_of($$select karvoiss_try_split('\x540145540145')$$) not like '54001 |%' then
        raise exception 'a call goes beyond max_stack_depth';
    end if;
end $do$;

-- deeper and deeper, with as much stack as the server may have here, until it says that it is enough
create function deeper(depth integer) returns integer language plpgsql as $$
begin
    perform karvoiss_split('\x540145540145'), karvoiss_object('\x000000000400000000'), karvoiss_cells('\x540145540145');
    return deeper(depth + 1);
end $$;
do $do$
declare
    most text;
begin
    foreach most in array array['2MB', '3MB', '7680kB'] loop
        continue when error_of(format('set max_stack_depth = %L', most)) like '22023 |%max_stack_depth%';
        if error_of('select deeper(0)') not like '54001 |%' then raise exception 'with % of stack: %', most, error_of('select deeper(0)'); end if;
    end loop;
    if current_setting('max_stack_depth') = '100kB' then raise exception 'no deeper stack was tried'; end if;
end $do$;
select 'words: errors, what is not taken, and the stack';
