-- Parallel workers answer what one process answers, about every sort of bytes, and a refusal comes out of a worker whole. Wants the table asked of postgres_answers.sql, whose answers are the calls' in C.
set parallel_setup_cost = 0;
set parallel_tuple_cost = 0;
set min_parallel_table_scan_size = 0;
set max_parallel_workers_per_gather = 4;

create function plan_of(query text) returns text language plpgsql as $$
declare
    line text;
    plan text := '';
begin
    for line in execute 'explain (analyze, costs off, timing off, summary off) ' || query loop plan := plan || line || chr(10); end loop;
    return plan;
end $$;

-- an answer that the calls in C have, null for a refusal
create function right_one(answer text) returns text language sql immutable parallel safe as $$ select case when answer not like '22K%' and answer <> 'null' then answer end $$;

do $do$
declare
    wrong constant text := 'select count(*) from asked where karvoiss_try_cells(bytes) is distinct from right_one(expected[1]) or karvoiss_try_bits(bytes)::text is distinct from right_one(expected[2])
        or karvoiss_number(bytes)::text <> expected[4] or karvoiss_place(bytes)::text <> expected[5] or karvoiss_try_vectors(bytes)::text is distinct from right_one(expected[16])
        or karvoiss_try_split(bytes)::text is distinct from right_one(expected[21]) or karvoiss_try_object(bytes)::text is distinct from right_one(expected[24])
        or karvoiss_try_summary(substr(bytes, 1, at))::text is distinct from right_one(expected[27])';
    plan constant text := plan_of(wrong);
    different bigint;
    detail text;
begin
    if plan !~ 'Workers Launched: [2-9]' then raise exception 'hardly a worker was at work: %', plan; end if;
    execute wrong into different;
    if different <> 0 then raise exception '% answers are others in workers', different; end if;
    -- one scene that is cut, among those that are taken
    create temporary table taken as select id, bytes from asked where expected[1] not like '22K%';
    create table scene as select id, case when id = (select max(id) from taken) then substr(bytes, 1, length(bytes) - 1) else bytes end as bytes from taken;
    begin
        perform sum(karvoiss_bits(bytes)) from scene;
        raise exception 'a refusal in a worker is not seen';
    exception when sqlstate '22K01' then
        get stacked diagnostics detail = pg_exception_detail;
        if detail !~ '^Refusal 1 at byte [0-9]+ of the scene.$' then raise exception 'another detail: %', detail; end if;
    end;
end $do$;

select format('workers: %s inputs, the answers of one process', count(*)) from asked;
