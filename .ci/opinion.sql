-- A resolver of scripts in PostgreSQL's own terms: lives of objects are ranges of versions, spans of intervals ranges of time, and
-- what governs is what is left of a span once the spans before it in order are taken away. `calendar` says who governs and until
-- when, in one statement; every query is answered from it. Bodies are valid ones, but for where their intervals lie.
SET TimeZone = 'UTC';
SET datestyle = 'ISO, YMD';
SET client_min_messages = warning;

CREATE UNLOGGED TABLE line (script int, place int, said text);

-- Each row is an object from one write of it, by the edit of that number, to the next, or to its end. `rank` is the order of creation.
CREATE UNLOGGED TABLE program (life int8range, id text, written bigint, name text);
CREATE UNLOGGED TABLE ven (life int8range, id text, name text, offers jsonb[]);
CREATE UNLOGGED TABLE resource (life int8range, id text, rank bigint, name text, ven text, offers jsonb[]);
CREATE UNLOGGED TABLE event (life int8range, id text, written bigint, program text, priority bigint, name text);
-- What an event or a program of that edit asks for: of each type that occurs in its targets, the pairs of the type with a value.
CREATE UNLOGGED TABLE ask (written bigint, pairs jsonb[]);
-- An interval of an event with its first payload of a type.
CREATE UNLOGGED TABLE entry (event bigint, place int, interval_id bigint, type text, span tstzrange, vals jsonb);
CREATE UNLOGGED TABLE server (version bigint, published bigint, number bigint, latest_start boolean);
CREATE INDEX ON ask (written);
CREATE INDEX ON entry (event);

-- An instant; years before 1 are those of BC, one more.
CREATE FUNCTION instant(text) RETURNS timestamptz LANGUAGE sql STABLE AS $$
  SELECT CASE WHEN $1 LIKE '-%' THEN (lpad((substr($1, 2, 6)::int + 1)::text, 4, '0') || substr($1, 8) || ' BC')::timestamptz
              WHEN $1 LIKE '0000%' THEN ('0001' || substr($1, 5) || ' BC')::timestamptz
              ELSE $1::timestamptz END $$;

CREATE FUNCTION start_of(text, moment timestamptz) RETURNS timestamptz LANGUAGE sql STABLE AS $$
  SELECT CASE WHEN $1 IN ('0000-00-00', '0000-00-00T00:00:00', '0000-00-00T00:00:00Z') THEN moment ELSE instant($1) END $$;

CREATE FUNCTION printed(t timestamptz) RETURNS text LANGUAGE sql STABLE AS $$
  SELECT CASE WHEN t = 'infinity' THEN 'end' ELSE
    CASE WHEN t < '0001-01-01 00:00:00+00 BC' THEN '-' || lpad((-1 - extract(year FROM t))::text, 6, '0')
         WHEN t < '0001-01-01 00:00:00+00' THEN '0000' ELSE to_char(t, 'YYYY') END
    || to_char(t, '-MM-DD"T"HH24:MI:SS') || coalesce('.' || nullif(rtrim(to_char(t, 'US'), '0'), ''), '') || 'Z' END $$;

-- A text in quotes; character by character only where it must be.
CREATE FUNCTION quoted(t text) RETURNS text LANGUAGE sql IMMUTABLE AS $$
  SELECT '"' || CASE WHEN t !~ '[\x01-\x1f]' THEN replace(replace(t, '\', '\\'), '"', '\"') ELSE
    (SELECT string_agg(CASE WHEN ascii(c) < 32 THEN '\u' || lpad(to_hex(ascii(c)), 4, '0') WHEN c IN ('"', '\') THEN '\' || c ELSE c END, '' ORDER BY i)
       FROM regexp_split_to_table(t, '') WITH ORDINALITY x(c, i)) END || '"' $$;

CREATE FUNCTION shown(vals jsonb) RETURNS text LANGUAGE plpgsql IMMUTABLE AS $$
BEGIN
  RETURN (SELECT ' values' || coalesce(string_agg(' ' || CASE jsonb_typeof(v)
           WHEN 'number' THEN trim_scale(v::numeric)::text
           WHEN 'string' THEN quoted(v #>> '{}')
           WHEN 'object' THEN '(' || trim_scale((v->'x')::numeric) || ',' || trim_scale((v->'y')::numeric) || ')'
           ELSE v::text END, '' ORDER BY i), '')
    FROM jsonb_array_elements(vals) WITH ORDINALITY x(v, i));
END $$;

-- The pairs of a list of targets, each a type and a value; of a type without values no pair.
CREATE FUNCTION pairs(targets jsonb) RETURNS TABLE (type text, pair jsonb) LANGUAGE sql IMMUTABLE AS $$
  SELECT t->>'type', CASE WHEN v IS NOT NULL THEN
           jsonb_build_array(t->>'type', CASE jsonb_typeof(v) WHEN 'object' THEN jsonb_build_array(v->'x', v->'y') ELSE v END) END
    FROM jsonb_array_elements(coalesce(nullif(targets, 'null'), '[]')) t LEFT JOIN LATERAL jsonb_array_elements(t->'values') v ON true $$;

CREATE FUNCTION offers(targets jsonb) RETURNS jsonb[] LANGUAGE plpgsql IMMUTABLE AS $$
BEGIN
  RETURN (SELECT coalesce(array_agg(pair), '{}') FROM pairs(targets)
   WHERE pair IS NOT NULL AND type NOT IN ('RESOURCE_NAME', 'VEN_NAME', 'EVENT_NAME', 'PROGRAM_NAME'));
END $$;

CREATE FUNCTION put_asks(number bigint, targets jsonb) RETURNS void LANGUAGE plpgsql AS $$
BEGIN
  INSERT INTO ask SELECT number, coalesce(array_agg(pair) FILTER (WHERE pair IS NOT NULL), '{}') FROM pairs(targets) GROUP BY type;
END $$;

-- The intervals of an event in order: where each lies, up to the first that lies nowhere, and why that is so.
CREATE FUNCTION layout(body jsonb, moment timestamptz) RETURNS TABLE (place int, it jsonb, lo timestamptz, hi timestamptz, fault text)
LANGUAGE plpgsql STABLE AS $$
DECLARE usual text := body #>> '{intervalPeriod,duration}'; own jsonb; long text; n bigint;
BEGIN
  hi := start_of(body #>> '{intervalPeriod,start}', moment);
  FOR it, n IN SELECT * FROM jsonb_array_elements(body->'intervals') WITH ORDINALITY LOOP
    place := n - 1; own := nullif(it->'intervalPeriod', 'null'); lo := hi; long := usual;
    IF own IS NOT NULL THEN
      lo := start_of(own->>'start', moment); long := coalesce(own->>'duration', usual);
    END IF;
    fault := CASE WHEN lo IS NULL THEN 'refused 19 NoStart' WHEN lo = 'infinity' THEN 'refused 20 AfterEndless' END;
    hi := CASE WHEN fault IS NOT NULL OR long IS NULL THEN lo WHEN long = 'P9999Y' THEN 'infinity' ELSE lo + long::interval END;
    IF fault IS NULL AND hi <> 'infinity' AND hi > '9999-12-30 22:00:00+00' THEN fault := 'refused 21 TimeRange'; END IF;
    RETURN NEXT;
    EXIT WHEN fault IS NOT NULL;
  END LOOP;
END $$;

-- Which of the entries of a type governs a resource, and for how long without a pause: the span of each without the spans of those
-- before it in order.
CREATE FUNCTION calendar(rid text, wanted text) RETURNS TABLE (stretch tstzrange, event_id text, interval_id bigint, vals jsonb)
LANGUAGE plpgsql STABLE AS $$
BEGIN
  RETURN QUERY
  WITH one AS MATERIALIZED (
    SELECT s.published, s.latest_start,
           r.offers || v.offers || jsonb_build_array('RESOURCE_NAME', r.name) || jsonb_build_array('VEN_NAME', v.name) AS offers
      FROM server s JOIN resource r ON r.id = rid AND r.life @> s.published JOIN ven v ON v.id = r.ven AND v.life @> s.published),
  applies AS MATERIALIZED (
    SELECT e.*, one.latest_start FROM one JOIN event e ON e.life @> one.published JOIN program p ON p.id = e.program AND p.life @> one.published
     WHERE NOT EXISTS (SELECT FROM ask a WHERE a.written IN (e.written, p.written) AND NOT a.pairs &&
             (one.offers || jsonb_build_array('EVENT_NAME', e.name) || jsonb_build_array('PROGRAM_NAME', p.name))))
  SELECT unnest(x.seen), x.id, x.interval_id, x.vals FROM (
    SELECT e.id, n.interval_id, n.vals, tstzmultirange(n.span) - coalesce(range_agg(n.span) OVER (
             ORDER BY e.priority, CASE WHEN e.latest_start THEN lower(n.span) END DESC, e.written DESC, n.place
              ROWS BETWEEN UNBOUNDED PRECEDING AND 1 PRECEDING), '{}') AS seen
      FROM applies e JOIN entry n ON n.event = e.written AND n.type = wanted) x;
END $$;

CREATE FUNCTION state(rid text, wanted text, t timestamptz) RETURNS text LANGUAGE plpgsql STABLE AS $$
BEGIN
  RETURN (WITH c AS MATERIALIZED (SELECT * FROM calendar(rid, wanted))
  SELECT coalesce((SELECT 'event ' || event_id || ' interval ' || interval_id || ' until ' || printed(coalesce(upper(stretch), 'infinity')) || shown(vals)
                     FROM c WHERE stretch @> t),
                  (SELECT 'none until ' || printed(coalesce(min(lower(stretch)), 'infinity')) FROM c WHERE lower(stretch) > t)));
END $$;

CREATE FUNCTION segments(rid text, wanted text, a timestamptz, b timestamptz) RETURNS text LANGUAGE plpgsql STABLE AS $$
BEGIN
  RETURN (SELECT coalesce(string_agg(printed(lower(s)) || ' ' || printed(upper(s)) || ' event ' || event_id || ' interval ' || interval_id || shown(vals)
                                   || E'\n', '' ORDER BY s), '')
    FROM (SELECT *, stretch * tstzrange(a, b) AS s FROM calendar(rid, wanted)) c WHERE NOT isempty(s));
END $$;

CREATE FUNCTION types(rid text) RETURNS text LANGUAGE plpgsql STABLE AS $$
BEGIN
  RETURN (SELECT coalesce(string_agg(t || E'\n', '' ORDER BY array_position('{SIMPLE,PRICE,GHG,CURVE,ALERT_OTHER}'::text[], t), t COLLATE "C"), '')
    FROM (SELECT DISTINCT type AS t FROM entry) x WHERE EXISTS (SELECT FROM calendar(rid, t)));
END $$;

CREATE FUNCTION is_known(rid text) RETURNS boolean LANGUAGE plpgsql STABLE AS $$
BEGIN
  RETURN (SELECT EXISTS (SELECT FROM resource, server WHERE id = rid AND life @> published));
END $$;

CREATE FUNCTION reply_to_query(w text[]) RETURNS text LANGUAGE plpgsql STABLE AS $$
DECLARE head text := (SELECT 'version ' || published FROM server);
BEGIN
  IF w[1] = 'list' AND instant(w[4]) >= instant(w[5]) THEN RETURN 'refused 28 BadWindow'; END IF;
  IF w[1] <> 'roll' AND NOT is_known(w[2]) THEN RETURN 'refused 29 UnknownResource'; END IF;
  RETURN CASE w[1]
    WHEN 'at' THEN head || ' ' || state(w[2], w[3], instant(w[4]))
    WHEN 'list' THEN head || E'\n' || segments(w[2], w[3], instant(w[4]), instant(w[5])) || '.'
    WHEN 'types' THEN head || E'\n' || types(w[2]) || '.'
    WHEN 'roll' THEN head || E'\n' || (SELECT coalesce(string_agg(id || ' ' || state(id, w[2], instant(w[3])) || E'\n', '' ORDER BY rank), '')
                                         FROM resource, server WHERE life @> published) || '.' END;
END $$;

-- Why an edit is refused, if it is: the least of the numbers.
CREATE FUNCTION refusal(verb text, kind text, own text, body jsonb, moment timestamptz) RETURNS text LANGUAGE plpgsql AS $$
DECLARE why text; is_there boolean;
BEGIN
  IF kind = 'event' THEN
    SELECT fault INTO why FROM layout(body, moment) WHERE fault IS NOT NULL;
    IF why IS NOT NULL THEN RETURN why; END IF;
  END IF;
  is_there := CASE kind
    WHEN 'event' THEN EXISTS (SELECT FROM event WHERE id = own AND upper_inf(life))
    WHEN 'resource' THEN EXISTS (SELECT FROM resource WHERE id = own AND upper_inf(life))
    WHEN 'ven' THEN EXISTS (SELECT FROM ven WHERE id = own AND upper_inf(life))
    WHEN 'program' THEN EXISTS (SELECT FROM program WHERE id = own AND upper_inf(life)) END;
  RETURN CASE
    WHEN verb = 'create' AND is_there THEN 'refused 22 Exists'
    WHEN verb <> 'create' AND NOT is_there THEN 'refused 23 NotThere'
    WHEN verb <> 'delete' AND kind = 'event' AND NOT EXISTS (SELECT FROM program WHERE id = body->>'programID' AND upper_inf(life))
      THEN 'refused 24 NoProgram'
    WHEN verb <> 'delete' AND kind = 'resource' AND NOT EXISTS (SELECT FROM ven WHERE id = body->>'venID' AND upper_inf(life)) THEN 'refused 25 NoVen'
    WHEN verb = 'delete' AND kind = 'program' AND EXISTS (SELECT FROM event WHERE program = own AND upper_inf(life)) THEN 'refused 26 InUse'
    WHEN verb = 'delete' AND kind = 'ven' AND EXISTS (SELECT FROM resource WHERE ven = own AND upper_inf(life)) THEN 'refused 26 InUse' END;
END $$;

CREATE FUNCTION put_event(number bigint, own text, body jsonb, moment timestamptz) RETURNS void LANGUAGE plpgsql AS $$
BEGIN
  INSERT INTO event VALUES (int8range(number, NULL), own, number, body->>'programID',
    coalesce((body->>'priority')::numeric, 4294967296), body->>'eventName');
  PERFORM put_asks(number, body->'targets');
  INSERT INTO entry SELECT DISTINCT ON (place, type) number, place, coalesce((it->>'id')::numeric, place), p->>'type' AS type, tstzrange(lo, nullif(hi, 'infinity')), p->'values'
    FROM layout(body, moment) CROSS JOIN jsonb_array_elements(it->'payloads') WITH ORDINALITY x(p, i) WHERE lo < hi ORDER BY place, type, i;
END $$;

-- The edit that takes the server to that version: the life of the object as it was ends, and that of the object as it is begins.
CREATE FUNCTION put(number bigint, verb text, kind text, own text, body jsonb, moment timestamptz) RETURNS void LANGUAGE plpgsql AS $$
DECLARE first bigint; now int8range := int8range(number, NULL);
BEGIN
  CASE kind
    WHEN 'event' THEN UPDATE event SET life = int8range(lower(life), number) WHERE id = own AND upper_inf(life);
    WHEN 'ven' THEN UPDATE ven SET life = int8range(lower(life), number) WHERE id = own AND upper_inf(life);
    WHEN 'resource' THEN UPDATE resource SET life = int8range(lower(life), number) WHERE id = own AND upper_inf(life) RETURNING rank INTO first;
    WHEN 'program' THEN UPDATE program SET life = int8range(lower(life), number) WHERE id = own AND upper_inf(life);
  END CASE;
  IF verb = 'delete' THEN RETURN; END IF;
  CASE kind
    WHEN 'event' THEN PERFORM put_event(number, own, body, moment);
    WHEN 'ven' THEN INSERT INTO ven VALUES (now, own, body->>'venName', offers(body->'targets'));
    WHEN 'resource' THEN INSERT INTO resource VALUES (now, own, coalesce(first, number), body->>'resourceName', body->>'venID', offers(body->'targets'));
    WHEN 'program' THEN INSERT INTO program VALUES (now, own, number, body->>'programName');
      PERFORM put_asks(number, body->'targets');
  END CASE;
END $$;

CREATE FUNCTION reply_to_edit(w text[]) RETURNS text LANGUAGE plpgsql AS $$
DECLARE moment timestamptz := instant(w[2]); body jsonb := nullif(array_to_string(w[6:], ' '), ''); why text := refusal(w[3], w[4], w[5], body, moment); number bigint;
BEGIN
  IF why IS NOT NULL THEN RETURN why; END IF;
  UPDATE server SET version = version + 1 RETURNING version INTO number;
  PERFORM put(number, w[3], w[4], w[5], body, moment);
  RETURN 'ok ' || number;
END $$;

CREATE FUNCTION reply_to(w text[]) RETURNS text LANGUAGE plpgsql AS $$
DECLARE told text;
BEGIN
  IF w[1] = 'edit' THEN RETURN reply_to_edit(w); END IF;
  IF w[1] <> 'publish' THEN RETURN reply_to_query(w); END IF;
  UPDATE server SET published = version, number = number + 1 RETURNING 'published ' || number || ' version ' || version INTO told;
  RETURN told;
END $$;

-- The replies to the lines of a script, from no objects on.
CREATE FUNCTION answer(which int, by_latest_start boolean) RETURNS text LANGUAGE plpgsql AS $$
DECLARE at record; told text := '';
BEGIN
  DELETE FROM program; DELETE FROM ven; DELETE FROM resource; DELETE FROM event; DELETE FROM ask; DELETE FROM entry; DELETE FROM server;
  INSERT INTO server VALUES (0, 0, 0, by_latest_start);
  FOR at IN SELECT said FROM line WHERE script = which ORDER BY place LOOP
    told := told || reply_to(string_to_array(at.said, ' ')) || E'\n';
  END LOOP;
  RETURN told;
END $$;
