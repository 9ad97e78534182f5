-- The same answers as the calls in C: of each input of the file each question is asked, in its own form and in the try_ form, and held against what tests/c/postgres.c has written beside it.
-- Wants the variable file.
create table asked (id bigint primary key, at integer, bytes bytea, expected text[]);
alter table asked alter bytes set storage external, alter expected set storage external;
copy asked from :'file';

-- @ stands for the prefix of the form; f and g are the first object's bytes and the rest, zeros is 20 of them, the summary of what has none
create table question (place serial primary key, expression text, right_ones bigint, refused bigint);
insert into question (expression) values
    ('@cells(bytes)'),
    ('@bits(bytes)'),
    ('@relate(bytes, pattern)'),
    ('karvoiss_number(bytes)'),
    ('karvoiss_place(bytes)'),
    ('@equals(bytes)'),
    ('@disjoint(bytes)'),
    ('@intersects(bytes)'),
    ('@touches(bytes)'),
    ('@within(bytes)'),
    ('@contains(bytes)'),
    ('@coveredby(bytes)'),
    ('@covers(bytes)'),
    ('@crosses(bytes)'),
    ('@overlaps(bytes)'),
    ('@vectors(bytes)'),
    ('@vectors(bytes, (id % 8)::integer, (id / 8 % 3)::integer)'),
    ('@area_both(bytes)'),
    ('@area_f_only(bytes)'),
    ('@area_g_only(bytes)'),
    ('@split(bytes)'),
    ('karvoiss_split_number(bytes)'),
    ('karvoiss_split_place(bytes)'),
    ('@object(bytes)'),
    ('karvoiss_object_number(bytes)'),
    ('karvoiss_object_place(bytes)'),
    ('@summary(f)'),
    ('karvoiss_summary_number(f)'),
    ('karvoiss_summary_place(f)'),
    ('@scene(f, g)'),
    ('@x_min(coalesce(karvoiss_try_summary(f), zeros))'),
    ('@y_min(coalesce(karvoiss_try_summary(f), zeros))'),
    ('@x_max(coalesce(karvoiss_try_summary(f), zeros))'),
    ('@y_max(coalesce(karvoiss_try_summary(f), zeros))'),
    ('@box(coalesce(karvoiss_try_summary(f), zeros))'),
    ('@far(coalesce(karvoiss_try_summary(f), zeros), coalesce(karvoiss_try_summary(g), zeros))'),
    ('@far_cells(coalesce(karvoiss_try_summary(f), zeros), coalesce(karvoiss_try_summary(g), zeros))'),
    ('@far_vectors(coalesce(karvoiss_try_summary(f), zeros), coalesce(karvoiss_try_summary(g), zeros))');

create view input as
    select id, bytes, substr(bytes, 1, at) as f, substr(bytes, at + 1) as g, decode(repeat('00', 20), 'hex') as zeros, expected,
        (array['T********', 'FF*FF****', 'T*F**FFF*', '****1****', '0********', '*********', 'TTTTTTTTT', 'T*T***T*', 'T*F*t****', '', 'T*F**F****'])[id % 11 + 1] as pattern
    from asked;

do $do$
declare
    question record;
    wrong record;
begin
    for question in select place, replace(expression, '@', 'karvoiss_') as plain, replace(expression, '@', 'karvoiss_try_') as tried from question order by place loop
        -- what the question raises: its SQLSTATE and DETAIL
        execute format($make$
            create or replace function raised(id bigint, bytes bytea, f bytea, g bytea, zeros bytea, pattern text) returns text language plpgsql as $function$
            declare
                state text;
                detail text;
            begin
                perform %s;
                return 'nothing';
            exception when others then
                get stacked diagnostics state = returned_sqlstate, detail = pg_exception_detail;
                return state || ' ' || detail;
            end $function$ $make$, question.plain);
        for wrong in execute format($query$
            select id, answer, plain, tried from (select *, expected[%s] as answer from input offset 0) as input,
                lateral (select answer like '22K%%' as is_refusal) as sort,
                lateral (select coalesce((%s)::text, 'null') as tried, case when is_refusal then raised(id, bytes, f, g, zeros, pattern) else coalesce((%s)::text, 'null') end as plain) as found
            where plain is distinct from answer or tried is distinct from case when is_refusal then 'null' else answer end limit 3 $query$,
            question.place, question.tried, question.plain)
        loop
            raise warning '% of input %: expected %, found % and in the try_ form %', question.plain, wrong.id, left(wrong.answer, 120), left(wrong.plain, 120), left(wrong.tried, 120);
        end loop;
        if found then raise exception 'an answer is not that of the call in C'; end if;
        update question as q set right_ones = count.taken, refused = count.refused
        from (select count(*) filter (where expected[question.place] not like '22K%') as taken, count(*) filter (where expected[question.place] like '22K%') as refused from asked) as count
        where q.place = question.place;
    end loop;
    -- each was answered and, if it can be, refused, and refusals of every number that a database meets were seen
    if exists (select from asked where cardinality(expected) <> (select count(*) from question)) then raise exception 'as many answers as questions are wanted'; end if;
    if exists (select from question where right_ones < 1000 or expression like '@%' and refused < 1000) then raise exception 'a question was hardly ever answered or refused'; end if;
end $do$;

create view refusal as select distinct left(answer, 5) as state from asked, unnest(expected) as answer where answer like '22K%';
do $do$
begin
    if (select count(*) from refusal) < 22 then raise exception 'only these refusals were seen: %', (select string_agg(state, ' ') from refusal); end if;
end $do$;

select format('answers: %s inputs, %s questions, %s answers and %s refusals of %s numbers, all those of the calls in C', (select count(*) from asked), count(*), sum(right_ones), sum(refused), (select count(*) from refusal))
from question;
