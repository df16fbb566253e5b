-- What came after 0.2.0; tables.sql says what it is.
ALTER TABLE boxes ADD COLUMN talks text;
ALTER TABLE jobs DROP CONSTRAINT jobs_what_check, ADD CONSTRAINT words_of_its_kind CHECK (CASE what
    WHEN 'collect' THEN words ~ '^[A-Za-z0-9][A-Za-z0-9._-]{0,63}$'
    WHEN 'release' THEN words ~ '^\d{4}-(0[1-9]|1[0-2])( [A-Za-z0-9][A-Za-z0-9._-]{0,63})?$'
    WHEN 'send' THEN words ~ '^\d{4}-(0[1-9]|1[0-2])$'
    WHEN 'erase' THEN words ~ '^[0-9a-f]{32}$' ELSE false END);
ALTER TABLE gaps DROP CONSTRAINT gaps_why_check,
    ADD CHECK (why IN ('error', 'too large', 'two energies', 'no record', 'other date'));
ALTER TABLE audits ADD CONSTRAINT is_its_file CHECK (sha256 = encode(sha256(file), 'hex'));
-- A mail address is one address: of a user who had another it goes.
DO $$
DECLARE
    one record;
BEGIN
    FOR one IN UPDATE tenancies t SET mail = NULL FROM tenancies was WHERE was.id = t.id AND NOT is_an_address(t.mail)
               RETURNING t.house, t.flat, was.mail LOOP
        RAISE WARNING 'flat % of % had the address %, which is none', one.flat, one.house, one.mail;
    END LOOP;
END $$;
ALTER TABLE tenancies DROP CONSTRAINT tenancies_mail_check, ADD CONSTRAINT is_an_address CHECK (is_an_address(mail));
-- What would be another, which stamps can't be and what came late are facts, and no sentences.
DROP VIEW bills_now;
ALTER TABLE bills DROP CONSTRAINT bills_changed_check, ALTER COLUMN changed TYPE jsonb
    USING CASE WHEN changed IS NOT NULL THEN jsonb_build_object('text', changed) END;
ALTER TABLE changes ALTER COLUMN says TYPE jsonb USING jsonb_build_object('text', says);
ALTER TABLE boxes ALTER COLUMN late TYPE jsonb USING NULL,
    ALTER COLUMN clock TYPE jsonb USING CASE WHEN clock IS NOT NULL THEN jsonb_build_object('first', clock) END;
ALTER TABLE audits ALTER COLUMN file SET COMPRESSION lz4;  -- a fourth of the time of the default, a sixth more room
-- Functions that go, or come to take something else.
DROP FUNCTION value_for(fittings, text, date, timestamptz, timestamptz), status_of(bytea[]), status_words(smallint),
    why_no_value(fittings, text, timestamptz, timestamptz), kwh(numeric, text), is_registered(text, text, text),
    out_is_frozen(), published_is_frozen(), bill_is_frozen(), audit_is_frozen() CASCADE;
-- The key of a published number is columns. Of each kind of key: of a bill, what it looked like, and kind, flat, use,
-- place, period and unit.
ALTER TABLE published ADD COLUMN kind text, ADD COLUMN flat text NOT NULL DEFAULT '',
    ADD COLUMN use text NOT NULL DEFAULT '', ADD COLUMN place bigint NOT NULL DEFAULT 0,
    ADD COLUMN period text NOT NULL DEFAULT '', ADD COLUMN unit text NOT NULL DEFAULT '';
UPDATE published p SET kind = k[1], flat = k[2], use = k[3], place = k[4]::bigint, period = k[5], unit = k[6]
FROM published o CROSS JOIN LATERAL (
    SELECT string_to_array(regexp_replace(o.key, form, parts), '|') AS k FROM (VALUES
        (1, true, '^(\S+) (.+) (\d+) (\S+ \S+) (\S+)$', '\5|\1|\2|\3|\4|'),
        (2, false, '^reading (\d+) (\d+)$', 'reading|||\1|\2|'),
        (3, false, '^(\S+) (.+) (\d+) (\d{6,} \d{6,}) (\S+)$', 'place|\1|\2|\3|\4|\5'),
        (4, false, '^(\S+) (.+) (\d{4}-\d\d) chart (\S+)$', 'chart|\1|\2|0|\3|\4'),
        (5, false, '^(\S+) (.+) change (\d{4}-\d\d)$', 'change|\1|\2|0|\3|'),
        (6, false, '^(\S+) (.+) (\d{4}-\d\d) (\S+)$', 'month|\1|\2|0|\3|\4'),
        (7, false, '^(\S+) (.+) average (\S+)$', 'average|\1|\2|0||\3'),
        (8, false, '^(\S+) (.+) (co2|weather|cost|factor|price)$', '\3|\1|\2|0||'),
        (9, false, '^flat (\S+) (.+)$', 'flat|\1|\2|0||'),
        (10, false, '^house (.+)$', 'house||\1|0||')) AS known (rank, is_bill, form, parts)
    WHERE is_bill = (o.days IS NOT NULL) AND o.key ~ form ORDER BY rank LIMIT 1) found
WHERE o.id = p.id;
ALTER TABLE published ALTER COLUMN kind SET NOT NULL, DROP COLUMN key;
DROP INDEX published_of_an_audit;
CREATE UNIQUE INDEX one_number_a_key ON published (audit, kind, flat, use, place, period, unit, coalesce(tenancy, 0))
    WHERE audit IS NOT NULL;
