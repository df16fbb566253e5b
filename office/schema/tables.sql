-- The tables of a new database (PostgreSQL 14 and later), after defaults.sql and before functions.sql, people.sql,
-- views.sql and rights.sql. An older database comes to the same by the numbered files, in the place of this one.

CREATE EXTENSION IF NOT EXISTS btree_gist;
CREATE SCHEMA desk;
CREATE TABLE schema_versions (
    version integer PRIMARY KEY, applied_at timestamptz NOT NULL DEFAULT now(),
    applied_by text NOT NULL DEFAULT session_user
);

-- ---- Houses, flats and their users

CREATE TABLE houses (
    house text PRIMARY KEY CHECK (house ~ '^[A-Za-z0-9][A-Za-z0-9._-]{0,63}$'), address text NOT NULL, postcode text,
    zone text NOT NULL DEFAULT 'Europe/Berlin' CHECK ((timestamptz '2024-01-01' AT TIME ZONE zone) IS NOT NULL),
    category text NOT NULL DEFAULT 'flat',      -- of users that are compared with one another
    contact text NOT NULL DEFAULT '',           -- who answers questions, on each sheet
    fuel_mix jsonb,                             -- shares by fuel
    co2_g_per_kwh numeric CHECK (co2_g_per_kwh >= 0), primary_factor numeric CHECK (primary_factor >= 0),
    made_by text NOT NULL DEFAULT acting(), shows_costs boolean NOT NULL DEFAULT false,
    advice text NOT NULL DEFAULT '',            -- who advises on saving energy, with a web address
    complaints text NOT NULL DEFAULT ''         -- where users complain, and who settles disputes
);

CREATE TABLE flats (
    house text NOT NULL REFERENCES houses, flat text NOT NULL CHECK (flat ~ '^[A-Za-z0-9./_-]{1,12}$'),
    area_m2 numeric CHECK (area_m2 > 0 AND area_m2 < 100000),  -- NULL: not known
    PRIMARY KEY (house, flat)
);

CREATE TABLE tenancies (
    id bigint GENERATED ALWAYS AS IDENTITY PRIMARY KEY, house text NOT NULL, flat text NOT NULL,
    days daterange NOT NULL CHECK (NOT isempty(days) AND NOT lower_inf(days)),
    person text NOT NULL CHECK (person <> ''), language text NOT NULL DEFAULT 'de' CHECK (language IN ('de', 'en')),
    wants text NOT NULL DEFAULT 'paper' CHECK (wants IN ('paper', 'link', 'nothing')),  -- how the sheets go out
    token text NOT NULL UNIQUE DEFAULT replace(gen_random_uuid()::text, '-', ''),  -- in the link to the sheets
    made_at timestamptz NOT NULL DEFAULT now(), made_by text NOT NULL DEFAULT acting(),
    mail text CONSTRAINT is_an_address CHECK (is_an_address(mail)), FOREIGN KEY (house, flat) REFERENCES flats,
    EXCLUDE USING gist (house WITH =, flat WITH =, days WITH &&)
);

-- ---- Boxes, their registers, orders and readings

-- A box: one image of `mbdc`. Its row is locked (FOR NO KEY UPDATE) by whoever talks to the box. A box whose image was
-- formatted anew, or replaced by an older copy, gets a new name, since it gives the same serials again.
CREATE TABLE boxes (
    name text PRIMARY KEY CHECK (name ~ '^[A-Za-z0-9][A-Za-z0-9._-]{0,63}$'),
    command text NOT NULL,                  -- runs a script from standard input at the box; {box} is the name
    number bigint CHECK (number >= 0),      -- the last number that the box answered OK; NULL before the first contact
    confirmed bigint CHECK (confirmed >= 0), -- the serial up to which the box has confirmed; NULL likewise
    active boolean NOT NULL DEFAULT true,   -- whether it is still to be collected
    overdue_after interval NOT NULL DEFAULT '2 days',
    collected_at timestamptz,               -- when everything that the box showed was last in the database
    fault text,                             -- what the last collection ended with, if it failed
    identity text CHECK (identity ~ '^[0-9a-f]{32}$'),  -- what it says it is (office-line); NULL before it has said it
    stored bigint NOT NULL DEFAULT 0 CHECK (stored >= 0),  -- the serial up to which it was stored; it only grows
    stale_after interval NOT NULL DEFAULT '36 hours', failed_at timestamptz,
    made_at timestamptz NOT NULL DEFAULT now(), made_by text DEFAULT session_user, house text REFERENCES houses,
    clock jsonb,                            -- of the last collection with wrong stamps: wrong, of, first
    clock_at timestamptz,
    late jsonb,                             -- of the last close, values after three days: values, meters, first
    talks text,                             -- it said more than a box can, or too much; until it is collected whole
    CHECK ((number IS NULL) = (confirmed IS NULL)), CHECK ((clock IS NULL) = (clock_at IS NULL)),
    CONSTRAINT confirmed_is_stored CHECK (confirmed <= stored)
);
CREATE UNIQUE INDEX one_active_box_an_identity ON boxes (identity) WHERE active;

-- Which house's meters a box hears, and since when.
CREATE TABLE box_houses (
    box text NOT NULL REFERENCES boxes, house text NOT NULL REFERENCES houses,
    during tstzrange NOT NULL CHECK (NOT isempty(during)),
    CONSTRAINT one_house_a_box EXCLUDE USING gist (box WITH =, during WITH &&)
);
CREATE INDEX boxes_of_a_house ON box_houses (house);

-- The commands that may be ordered, which office/migrate takes from office/box_commands.py. words: how many follow the
-- verb. CONFIRM can't be one: the collector alone sends it, once the readings are stored.
CREATE TABLE box_commands (
    verb text NOT NULL CHECK (verb ~ '^[A-Z]+$' AND verb <> 'CONFIRM'), words smallint NOT NULL CHECK (words >= 0),
    PRIMARY KEY (verb, words)
);

-- queued: not sent yet. pending: has its number, and may have been sent. done: answered OK. refused: answered ERR, and
-- its number is used again. given_up: ended by a person; nobody knows whether it was done.
CREATE TYPE order_state AS ENUM ('queued', 'pending', 'done', 'refused', 'given_up');

-- Every numbered line of every box, without its number.
CREATE TABLE orders (
    id bigint GENERATED ALWAYS AS IDENTITY PRIMARY KEY, box text NOT NULL REFERENCES boxes,
    key text,                               -- the caller's: the same key is the same order; NULL of a CONFIRM
    line text NOT NULL,
    confirms bigint,                        -- the serial of a CONFIRM, NULL of any other line
    number bigint CHECK (number BETWEEN 1 AND 999999999999999998), state order_state NOT NULL DEFAULT 'queued',
    answer text, made_at timestamptz NOT NULL DEFAULT now(), ended_at timestamptz,
    made_by text DEFAULT acting(),          -- NULL where it isn't known
    verb text GENERATED ALWAYS AS (CASE WHEN confirms IS NULL THEN split_part(line, ' ', 1) END) STORED,
    words smallint GENERATED ALWAYS AS (cardinality(string_to_array(line, ' ')) - 1) STORED, UNIQUE (box, key),
    CONSTRAINT numbered CHECK (CASE state WHEN 'queued' THEN number IS NULL WHEN 'given_up' THEN true
                               ELSE number IS NOT NULL END),
    CONSTRAINT answered CHECK ((state IN ('queued', 'pending')) = (answer IS NULL)),
    CONSTRAINT is_a_line CHECK (
        length(line) <= 100 AND confirms IS NULL AND line ~ '^[A-Z]+( [A-Za-z0-9./_-]+)*$'
        OR confirms IS NOT NULL AND confirms >= 1 AND key IS NULL AND line = 'CONFIRM ' || confirms)
);
-- (Not valid for older rows: a line with another number of words was sent then, and refused by the box.)
ALTER TABLE orders ADD CONSTRAINT is_a_command FOREIGN KEY (verb, words) REFERENCES box_commands NOT VALID;
CREATE UNIQUE INDEX one_pending_order_a_box ON orders (box) WHERE state = 'pending';
CREATE UNIQUE INDEX one_order_a_number ON orders (box, number) WHERE state IN ('pending', 'done');
CREATE INDEX open_orders ON orders (box, id) WHERE state IN ('pending', 'queued');
CREATE INDEX refused_orders ON orders (box, number) WHERE state = 'refused';
CREATE INDEX given_up_orders ON orders (box, id) WHERE state = 'given_up';

-- A reading: the telegrams of one readout as the box showed them, with the second at which each was heard, by the box's
-- clock. The body is a telegram without its frame (EN 13757-3: header and records). `readings_follow` holds each box
-- to one reading a serial over all months, and `boxes.stored` to what is stored. at: what the box says, where that can
-- be; else the collection's, where another one was at most 26 hours before; else NULL (office/storing.py).
CREATE TABLE readings (
    month date NOT NULL DEFAULT this_month(),  -- in which it was stored: its first day, UTC
    box text NOT NULL CONSTRAINT readings_box_fkey1 REFERENCES boxes,
    serial bigint NOT NULL CONSTRAINT readings_serial_check1 CHECK (serial >= 1),
    identity text NOT NULL, flat text NOT NULL, heard timestamptz[] NOT NULL, bodies bytea[] NOT NULL,
    stored_at timestamptz NOT NULL DEFAULT now(), at timestamptz, PRIMARY KEY (box, serial, month),
    CONSTRAINT readings_check1 CHECK (cardinality(heard) = cardinality(bodies) AND cardinality(bodies) BETWEEN 1 AND 32)
) PARTITION BY RANGE (month);
CREATE INDEX readings_of_a_meter ON readings (box, identity, at);

-- A record of a telegram as `mbdc decode` decodes it, stored in the transaction of its reading, with the same month. A
-- foreign key to readings would make storing them six times as slow.
CREATE TABLE points (
    month date NOT NULL DEFAULT this_month(), box text NOT NULL, serial bigint NOT NULL,
    part smallint NOT NULL,                 -- the telegram, from 1
    place smallint NOT NULL,                -- the record in it, from 1
    storage bigint NOT NULL,
    function smallint NOT NULL,             -- 0 instantaneous, 1 maximum, 2 minimum, 3 during an error
    tariff bigint NOT NULL, subunit integer NOT NULL,
    vib text NOT NULL,                      -- in hex digits
    quantity text,                          -- in words, where the decoder names it
    shown text NOT NULL,                    -- the value as the decoder prints it
    value numeric,                          -- the value, exact, where it is a number
    unit text,
    due date,                               -- the day at whose end the meter stored the value (OMS Volume 2)
    PRIMARY KEY (box, serial, part, place, month)
) PARTITION BY RANGE (month);

-- Of each meter and due date the last reading that has a value for it.
CREATE TABLE due_readings (
    box text NOT NULL REFERENCES boxes, identity text NOT NULL, due date NOT NULL,
    serial bigint NOT NULL, month date NOT NULL DEFAULT this_month(), PRIMARY KEY (box, identity, due)
);

-- The registers of the boxes: as each showed it at the first contact, with the orders done since. A box that shows
-- another register isn't the one that has this name. serial and on: of the last reading; NULL before the first.
CREATE TABLE meters (
    box text NOT NULL REFERENCES boxes, identity text NOT NULL,
    line smallint NOT NULL, address text NOT NULL, flat text NOT NULL, since timestamptz NOT NULL DEFAULT now(),
    serial bigint,
    heard timestamptz,                      -- by the box's clock
    stored_at timestamptz, status smallint, at timestamptz, PRIMARY KEY (box, identity)
);

-- Each run of office/collect over all boxes; ended_at is NULL where it was killed.
CREATE TABLE collections (
    id bigint GENERATED ALWAYS AS IDENTITY PRIMARY KEY,
    begun_at timestamptz NOT NULL DEFAULT now(), ended_at timestamptz,
    boxes integer NOT NULL, failed integer, readings bigint, made_by text NOT NULL DEFAULT session_user
);

-- ---- What a meter counts: rows, which the programs read

-- What a place is supplied with. position: on sheets. is_daily: of a tenancy without any use for weeks somebody should
-- know. is_charted: by months. has_carbon: its kWh cause the emissions of the house's heat supply. is_heating: by the
-- weather.
CREATE TABLE uses (
    use text PRIMARY KEY, quantity text NOT NULL CHECK (quantity IN ('energy', 'volume', 'allocation')),
    position smallint NOT NULL DEFAULT 100, is_daily boolean NOT NULL DEFAULT false,
    is_charted boolean NOT NULL DEFAULT true, has_carbon boolean NOT NULL DEFAULT false,
    is_heating boolean NOT NULL DEFAULT false
);
-- (A use of before with another word stays, and the audit refuses the house.)
ALTER TABLE uses ADD CONSTRAINT is_a_word CHECK (use ~ '^[a-z0-9 -]{1,32}$') NOT VALID;
INSERT INTO uses VALUES
    ('heat', 'energy', 1, false, true, true, true), ('cooling', 'energy', 3, false, true, false, false),
    ('allocator', 'allocation', 2, false, true, true, true), ('warm water', 'volume', 4, true, true, true, false),
    ('cold water', 'volume', 5, true, false, false, false), ('gas', 'volume', 6, false, true, false, false),
    ('electricity', 'energy', 7, true, false, false, false);

-- smallest: how many smallest units one is. step: what an estimate is rounded to.
CREATE TABLE units (
    unit text PRIMARY KEY, quantity text NOT NULL CHECK (quantity = quantity_of(unit)),
    smallest numeric NOT NULL CHECK (smallest = smallest_units(unit)), step numeric NOT NULL CHECK (step > 0)
);
INSERT INTO units SELECT unit, quantity_of(unit), smallest_units(unit), step
FROM (VALUES ('Wh', 1), ('J', 1), ('HCA', 1), ('m3', 0.001), ('MWh', 0.001), ('GJ', 0.001)) AS k (unit, step);

-- The device types (EN 13757-3; the last byte of an identity). use: NULL of those that consume nothing.
CREATE TABLE device_types (medium text PRIMARY KEY CHECK (medium ~ '^[0-9A-F]{2}$'), use text REFERENCES uses);
INSERT INTO device_types VALUES ('04', 'heat'), ('0C', 'heat'), ('0D', 'heat'), ('0A', 'cooling'), ('0B', 'cooling'),
    ('06', 'warm water'), ('15', 'warm water'), ('07', 'cold water'), ('16', 'cold water'), ('02', 'electricity'),
    ('03', 'gas'), ('08', 'allocator');
INSERT INTO device_types SELECT upper(lpad(to_hex(n), 2, '0')), NULL FROM generate_series(26, 63) n
WHERE n BETWEEN 26 AND 31 OR n BETWEEN 32 AND 39 OR n BETWEEN 48 AND 63;

-- What a person decided of a meter whose device type doesn't say it. use: NULL: no consumption. vib: the record that
-- counts; a meter of heat and cooling has two rows.
CREATE TABLE decided_uses (
    house text NOT NULL REFERENCES houses, identity text NOT NULL,
    use text REFERENCES uses, vib text CHECK (vib ~ '^([0-9A-F]{2})+$'), made_at timestamptz NOT NULL DEFAULT now(),
    made_by text NOT NULL DEFAULT acting()
);
CREATE UNIQUE INDEX one_decision_a_record ON decided_uses (house, identity, coalesce(vib, ''));

-- What a meter of a use can count in an hour, in smallest units, where its fitting doesn't say it.
CREATE TABLE limits (use text PRIMARY KEY REFERENCES uses, most bigint NOT NULL CHECK (most > 0));
INSERT INTO limits VALUES ('warm water', 3125000), ('cold water', 3125000), ('heat', 216000000000),
    ('cooling', 216000000000), ('allocator', 20000);

-- How many digits the counters of a model have.
CREATE TABLE models (
    manufacturer text NOT NULL, version text NOT NULL, medium text NOT NULL,
    digits smallint NOT NULL CHECK (digits BETWEEN 4 AND 12), PRIMARY KEY (manufacturer, version, medium)
);

-- ---- Places and the meters at them

-- A supply point of a flat. weight: the rating factor of a heat cost allocator's radiator.
CREATE TABLE places (
    id bigint GENERATED ALWAYS AS IDENTITY PRIMARY KEY,
    house text NOT NULL, flat text NOT NULL, use text NOT NULL REFERENCES uses,
    number smallint NOT NULL CHECK (number >= 1), weight numeric NOT NULL DEFAULT 1 CHECK (weight > 0),
    UNIQUE (house, flat, use, number), FOREIGN KEY (house, flat) REFERENCES flats,
    CONSTRAINT house_of_a_place UNIQUE (id, house)
);

-- Which meter stood at a place, and from when to when, whatever box hears it: an exchange is two rows. vib: the record
-- that counts, where it isn't the first of the use's quantity. first_value, last_value: read when it was fitted and
-- removed, by a person. most: as in limits. size: the value in smallest units at which its counter goes on at 0.
CREATE TABLE fittings (
    id bigint GENERATED ALWAYS AS IDENTITY PRIMARY KEY,
    place bigint NOT NULL REFERENCES places, identity text NOT NULL, during tstzrange NOT NULL,
    vib text CHECK (vib ~ '^([0-9A-F]{2})+$'), unit text CHECK (unit IS NULL OR quantity_of(unit) IS NOT NULL),
    first_value numeric, last_value numeric, last_is_estimated boolean NOT NULL DEFAULT false,
    first_amount bigint GENERATED ALWAYS AS (smallest(first_value, unit)) STORED,
    last_amount bigint GENERATED ALWAYS AS (smallest(last_value, unit)) STORED,
    made_by text NOT NULL DEFAULT acting(), house text NOT NULL,
    most bigint CHECK (most > 0), size bigint CHECK (size > 0), first_is_estimated boolean NOT NULL DEFAULT false,
    CHECK (NOT isempty(during) AND NOT lower_inf(during) AND lower_inc(during) AND NOT upper_inc(during)),
    CHECK (first_value IS NULL OR smallest(first_value, unit) IS NOT NULL),
    CHECK (last_value IS NULL OR smallest(last_value, unit) IS NOT NULL),
    CHECK (last_value IS NULL OR NOT upper_inf(during)),
    CONSTRAINT place_in_the_house FOREIGN KEY (place, house) REFERENCES places (id, house),
    CONSTRAINT one_meter_a_place EXCLUDE USING gist (place WITH =, during WITH &&),
    CONSTRAINT one_place_a_meter EXCLUDE USING gist (house WITH =, identity WITH =, coalesce(vib, '') WITH =,
        during WITH &&)
);

-- A counter that began anew at a moment, or jumped: it is an exchange of the meter for itself. last, first: what it
-- stood at before and after. why: 'due date' where the office saw an allocator begin its year.
CREATE TABLE restarts (
    id bigint GENERATED ALWAYS AS IDENTITY PRIMARY KEY, fitting bigint NOT NULL REFERENCES fittings ON DELETE CASCADE,
    at timestamptz NOT NULL, last numeric NOT NULL, first numeric NOT NULL, unit text NOT NULL,
    is_estimated boolean NOT NULL DEFAULT false, why text NOT NULL CHECK (why <> ''),
    last_amount bigint GENERATED ALWAYS AS (smallest(last, unit)) STORED NOT NULL,
    first_amount bigint GENERATED ALWAYS AS (smallest(first, unit)) STORED NOT NULL,
    made_at timestamptz NOT NULL DEFAULT now(), made_by text NOT NULL DEFAULT acting(), UNIQUE (fitting, at)
);

-- An exchange that a person entered before the box knew of it; it is done when the new meter is fitted.
CREATE TABLE exchanges (
    house text NOT NULL REFERENCES houses, removed text NOT NULL, fitted text NOT NULL,
    at timestamptz NOT NULL, last numeric, first numeric, unit text NOT NULL, PRIMARY KEY (house, fitted)
);

-- kWh of a cubic metre, or of an allocator's unit: of any use but energies, and cold water.
CREATE TABLE factors (
    house text NOT NULL REFERENCES houses, use text NOT NULL REFERENCES uses,
    months daterange NOT NULL CHECK (NOT isempty(months)), kwh_per_unit numeric NOT NULL CHECK (kwh_per_unit > 0),
    made_by text NOT NULL DEFAULT session_user, source text NOT NULL DEFAULT '',
    EXCLUDE USING gist (house WITH =, use WITH =, months WITH &&)
);

-- Cents for what a sheet shows (kWh, m3 or an allocator's unit), without fixed costs.
CREATE TABLE prices (
    house text NOT NULL REFERENCES houses, use text NOT NULL REFERENCES uses,
    months daterange NOT NULL CHECK (NOT isempty(months)), unit text NOT NULL CHECK (unit IN ('kWh', 'm³', 'HCA')),
    cents numeric NOT NULL CHECK (cents >= 0), made_by text NOT NULL DEFAULT acting(),
    EXCLUDE USING gist (house WITH =, use WITH =, months WITH &&)
);

-- How cold a month was, by postcode; where both months have a row the comparison is adjusted, too. source: who says so.
CREATE TABLE degree_days (
    postcode text NOT NULL, month date NOT NULL CHECK (month = date_trunc('month', month)),
    days numeric NOT NULL CHECK (days >= 0), source text NOT NULL CHECK (source <> ''), PRIMARY KEY (postcode, month)
);

-- ---- Values at the ends of days

-- What a meter stood at, at most once a day but for struck ones. stored: by the meter, at the end of the day. read: the
-- last reading of the day. estimated: how says by what. month, box, serial, part: the telegram (readings).
CREATE TABLE day_values (
    id bigint GENERATED ALWAYS AS IDENTITY PRIMARY KEY,
    fitting bigint NOT NULL REFERENCES fittings, day date NOT NULL, at timestamptz NOT NULL, value numeric NOT NULL,
    unit text NOT NULL, amount bigint GENERATED ALWAYS AS (smallest(value, unit)) STORED NOT NULL,
    source text NOT NULL CHECK (source IN ('stored', 'read', 'estimated', 'by hand')),
    how text, month date, serial bigint, part smallint,
    made_at timestamptz NOT NULL DEFAULT now(), made_by text NOT NULL DEFAULT acting(),
    struck_at timestamptz, struck_by text, struck_why text CHECK (struck_why <> ''), box text REFERENCES boxes,
    CHECK ((how IS NOT NULL) = (source = 'estimated')),
    CONSTRAINT day_values_check2 CHECK (num_nonnulls(struck_at, struck_by, struck_why) IN (0, 3)),
    CONSTRAINT has_its_telegram CHECK (
        num_nonnulls(box, month, serial, part) = CASE WHEN source IN ('stored', 'read') THEN 4 ELSE 0 END)
);
CREATE UNIQUE INDEX one_value_a_day ON day_values (fitting, day) WHERE struck_at IS NULL;
CREATE INDEX struck_values ON day_values (fitting, day) WHERE struck_at IS NOT NULL;

-- A day on which a meter was read, and has no value; why: 'error' (the status byte), 'too large' (for 18 digits of the
-- smallest unit, or no whole number of them), 'two energies', 'no record' of the use's quantity, or 'other date': the
-- telegram's own dates aren't those of its moment.
CREATE TABLE gaps (
    fitting bigint NOT NULL REFERENCES fittings ON DELETE CASCADE, day date NOT NULL,
    why text NOT NULL CHECK (why IN ('error', 'too large', 'two energies', 'no record', 'other date')),
    PRIMARY KEY (fitting, day)
);

-- What ran through a water meter between 0:00 and 5:00, in smallest units; only of nights with two readings and more.
CREATE TABLE night_use (
    fitting bigint NOT NULL REFERENCES fittings, night date NOT NULL, amount bigint NOT NULL CHECK (amount >= 0),
    PRIMARY KEY (fitting, night)
);

-- What office/close works off: the days of a fitting for which something was stored, struck or put since. is_changed:
-- its months are to be computed also where no value of the day comes to be another. Who adds a row locks it, so that a
-- close that goes on either sees what it stands for, or leaves it.
CREATE TABLE to_close (
    fitting bigint NOT NULL REFERENCES fittings ON DELETE CASCADE, day date NOT NULL,
    is_changed boolean NOT NULL DEFAULT false, PRIMARY KEY (fitting, day)
);

-- The months that are to be computed, once they are over.
CREATE TABLE to_compute (
    house text NOT NULL REFERENCES houses, month date NOT NULL CHECK (month = date_trunc('month', month)),
    PRIMARY KEY (house, month)
);

-- ---- Months, bills, and what was printed of them

-- disturbed: a step that touches the period, or one beside it, falls or rises by more than the meter can count.
-- unclear: exchanges that aren't those of the fittings and restarts, or without their values. missing: no value before,
-- or after. estimated; provisional: the step after the end is to come; hand: by a value that a person put; measured;
-- zero.
CREATE DOMAIN grade AS text
    CHECK (VALUE IN ('measured', 'zero', 'hand', 'provisional', 'estimated', 'unclear', 'disturbed', 'missing'));

-- What was computed of a place in a month (part 0) and, where its user changed, in each user's part of it. is_held: a
-- step is so large that a person has to say why it is right, before it is on a sheet. basis: the values that it comes
-- from.
CREATE TABLE month_use (
    month date NOT NULL CHECK (month = date_trunc('month', month)), place bigint NOT NULL REFERENCES places,
    part smallint NOT NULL CHECK (part >= 0), begins timestamptz NOT NULL, ends timestamptz NOT NULL,
    tenancy bigint REFERENCES tenancies ON DELETE SET NULL, amount bigint CHECK (amount >= 0), grade grade NOT NULL,
    is_held boolean NOT NULL, basis jsonb NOT NULL CHECK (jsonb_typeof(basis) = 'array'),
    made_at timestamptz NOT NULL DEFAULT now(), made_by text NOT NULL DEFAULT session_user,
    version smallint NOT NULL DEFAULT 1, out_at timestamptz, PRIMARY KEY (month, place, part, version),
    CHECK (begins < ends),
    CONSTRAINT number_by_grade CHECK ((amount IS NULL) = (grade IN ('missing', 'disturbed', 'unclear'))),
    CONSTRAINT zero_is_0 CHECK (grade <> 'zero' OR amount = 0)
);
CREATE INDEX month_use_of_a_tenancy ON month_use (tenancy, month);
CREATE INDEX month_use_of_a_place ON month_use (place, month);

-- The values that a version was computed from, with what else decides it, so that it can be computed again once the
-- days are gone. evidence: where each comes from. meters: that were there.
CREATE TABLE frozen_values (
    month date NOT NULL, place bigint NOT NULL REFERENCES places, version smallint NOT NULL,
    entries bigint[] NOT NULL,                  -- of each entry meter, moment, value, most, size
    evidence jsonb, meters jsonb, PRIMARY KEY (month, place, version)
);

-- Why a held or provisional number is right.
CREATE TABLE seen (
    month date NOT NULL, place bigint NOT NULL REFERENCES places, part smallint NOT NULL, amount bigint NOT NULL,
    why text NOT NULL CHECK (why <> ''),
    made_at timestamptz NOT NULL DEFAULT now(), made_by text NOT NULL DEFAULT acting(),
    PRIMARY KEY (month, place, part, amount)
);

-- An audit file of a month, or of a bill (days is set), that `mbdc audit` accepted; there is no other row. file: NULL
-- once it was dropped (office/retain). program: what it says it is. says: its last line. void_at: the open month was
-- computed anew.
CREATE TABLE audits (
    id bigint GENERATED ALWAYS AS IDENTITY PRIMARY KEY,
    house text NOT NULL REFERENCES houses, month date CHECK (month = date_trunc('month', month)), days daterange,
    version smallint NOT NULL, file bytea COMPRESSION lz4,
    sha256 text NOT NULL CHECK (sha256 ~ '^[0-9a-f]{64}$'), program text NOT NULL CHECK (program <> ''),
    program_sha256 text NOT NULL CHECK (program_sha256 ~ '^[0-9a-f]{64}$'),
    says text NOT NULL CHECK (says LIKE 'numbers %, differ 0, %refused 0,%'),
    void_at timestamptz, made_at timestamptz NOT NULL DEFAULT now(), made_by text NOT NULL DEFAULT acting(),
    CONSTRAINT of_a_month_or_a_bill CHECK (num_nonnulls(month, days) = 1),
    CONSTRAINT is_its_file CHECK (sha256 = encode(sha256(file), 'hex'))
);
CREATE INDEX audits_of_a_month ON audits (house, month, version);
CREATE INDEX audits_of_a_bill ON audits (house, days, version);

-- What `mbdc audit` refused last, of a month or a bill, until it accepts it.
CREATE TABLE refusals (
    house text NOT NULL REFERENCES houses, period text NOT NULL, says text NOT NULL,
    at timestamptz NOT NULL DEFAULT now(), PRIMARY KEY (house, period)
);

-- The versions of a month of a house: the first when its sheets are released (office/sheets --release), later ones by
-- office/correct alone. out_at: when it was released; NULL as long as it is open. is_before_audits: it went out before
-- there were audits, and has none; no role may mark more.
CREATE TABLE versions (
    house text NOT NULL REFERENCES houses, month date NOT NULL CHECK (month = date_trunc('month', month)),
    version smallint NOT NULL CHECK (version >= 1), why text NOT NULL CHECK (why <> ''),
    made_at timestamptz NOT NULL DEFAULT now(), made_by text NOT NULL DEFAULT acting(),
    out_at timestamptz, audit bigint REFERENCES audits, is_before_audits boolean NOT NULL DEFAULT false,
    PRIMARY KEY (house, month, version),
    CONSTRAINT has_an_audit CHECK (out_at IS NULL OR audit IS NOT NULL OR is_before_audits)
);
CREATE UNIQUE INDEX one_open_version ON versions (house, month) WHERE out_at IS NULL;

-- The versions of a bill, what a house consumed in a period: likewise (office/bill --release). is_to_check: a month of
-- it was computed since. changed: how it would be another now. left_why: a person left it as it is, of that difference.
CREATE TABLE bills (
    house text NOT NULL REFERENCES houses,
    days daterange NOT NULL CHECK (NOT isempty(days) AND NOT lower_inf(days) AND NOT upper_inf(days)),
    version smallint NOT NULL CHECK (version >= 1), why text NOT NULL CHECK (why <> ''),
    made_at timestamptz NOT NULL DEFAULT now(), made_by text NOT NULL DEFAULT session_user, out_at timestamptz,
    is_to_check boolean NOT NULL DEFAULT false, changed jsonb, left_why text CHECK (left_why <> ''), left_by text,
    audit bigint REFERENCES audits, is_before_audits boolean NOT NULL DEFAULT false,
    PRIMARY KEY (house, days, version),
    CONSTRAINT has_an_audit CHECK (out_at IS NULL OR audit IS NOT NULL OR is_before_audits)
);
CREATE UNIQUE INDEX one_open_bill ON bills (house, days) WHERE out_at IS NULL;

-- Every number that may be printed. kind to unit say which number of an audit it is (office/program.py; of a bill the
-- kind is the column), text is the number with a point, mark its grade (of a house's sum: how many of its places have
-- no number, and how many there are). Rows without an audit went out before audits.
CREATE TABLE published (
    id bigint GENERATED ALWAYS AS IDENTITY PRIMARY KEY, house text NOT NULL, month date, version smallint NOT NULL,
    tenancy bigint REFERENCES tenancies ON DELETE SET NULL, text text NOT NULL, mark text NOT NULL,
    days daterange, audit bigint REFERENCES audits, kind text NOT NULL,
    flat text NOT NULL DEFAULT '', use text NOT NULL DEFAULT '',
    place bigint NOT NULL DEFAULT 0,            -- its number; of a reading the fitting
    period text NOT NULL DEFAULT '',            -- a month, the ends of a part of one, or a moment
    unit text NOT NULL DEFAULT '',
    CONSTRAINT of_a_month_or_a_bill CHECK (num_nonnulls(month, days) = 1)
);
CREATE INDEX published_of_a_tenancy ON published (tenancy);
CREATE UNIQUE INDEX one_number_a_key ON published (audit, kind, flat, use, place, period, unit, coalesce(tenancy, 0))
    WHERE audit IS NOT NULL;

-- A month that is out, and would be another by what is known now. says: the first numbers that would be others, and how
-- many more (office/months.py). left_why: a person left it as it is, of that difference.
CREATE TABLE changes (
    house text NOT NULL REFERENCES houses, month date NOT NULL, says jsonb NOT NULL,
    seen_at timestamptz NOT NULL DEFAULT now(), left_why text CHECK (left_why <> ''), left_by text,
    PRIMARY KEY (house, month)
);

-- The first day from which on the values of all days are there, with their telegrams (office/retain).
CREATE TABLE kept (since date NOT NULL);
CREATE UNIQUE INDEX one_row ON kept ((true));

-- out_at: released with this file. sent_to: a mail address, or the file of a print run. failed_why: it didn't reach the
-- user; a person mends it, and it is sent again.
CREATE TABLE sheets (
    id bigint GENERATED ALWAYS AS IDENTITY PRIMARY KEY,
    tenancy bigint NOT NULL REFERENCES tenancies ON DELETE CASCADE,
    month date NOT NULL CHECK (month = date_trunc('month', month)),
    form text NOT NULL CHECK (form IN ('html', 'pdf')),
    path text NOT NULL, sha256 text NOT NULL CHECK (sha256 ~ '^[0-9a-f]{64}$'),
    made_at timestamptz NOT NULL DEFAULT now(), made_by text NOT NULL DEFAULT session_user, sent_at timestamptz,
    version smallint NOT NULL DEFAULT 1, out_at timestamptz, sent_to text, failed_at timestamptz, failed_why text,
    audit bigint REFERENCES audits, is_before_audits boolean NOT NULL DEFAULT false,
    UNIQUE (tenancy, month, form, sha256), CHECK ((failed_at IS NULL) = (failed_why IS NULL)),
    CHECK (sent_at IS NULL OR failed_at IS NULL),
    CONSTRAINT has_an_audit CHECK (audit IS NOT NULL OR is_before_audits)
);
CREATE INDEX sheets_to_send ON sheets (month) WHERE out_at IS NOT NULL AND sent_at IS NULL;

-- ---- The manager's page (office/desk)

-- Who signs in at the web server, by that name. publisher: a clerk who also releases and corrects months.
CREATE TABLE people (
    person text PRIMARY KEY CHECK (person ~ '^[!-~]{1,64}$'),
    role text NOT NULL CHECK (role IN ('reader', 'clerk', 'publisher')),
    language text NOT NULL DEFAULT 'de' CHECK (language IN ('de', 'en'))
);

-- What was done. No role writes this table: the functions of the schema `desk` do.
CREATE TABLE log (
    id bigint GENERATED ALWAYS AS IDENTITY PRIMARY KEY,
    at timestamptz NOT NULL DEFAULT now(), who text NOT NULL DEFAULT acting(),
    what text NOT NULL,                         -- the function
    house text,
    subject text NOT NULL,                      -- meter, flat, box, month ..
    before jsonb, after jsonb, why text NOT NULL CHECK (why ~ '\S' AND length(why) <= 500),
    item bigint                                 -- of alarms
);
CREATE INDEX log_of_a_house ON log (house, id);

-- A form is sent once.
CREATE TABLE forms (
    token text PRIMARY KEY, used_at timestamptz NOT NULL DEFAULT now(), who text NOT NULL DEFAULT acting()
);

-- What programs of the office are asked to do (office/work), by functions alone. words: what its kind has: a box; a
-- month, and a house; a month; the token of a user who is forgotten.
CREATE TABLE jobs (
    id bigint GENERATED ALWAYS AS IDENTITY PRIMARY KEY, what text NOT NULL, words text NOT NULL,
    asked_at timestamptz NOT NULL DEFAULT now(), asked_by text NOT NULL DEFAULT acting(),
    begun_at timestamptz, ended_at timestamptz, status smallint, says text,
    CHECK ((ended_at IS NULL) = (status IS NULL)),
    CONSTRAINT words_of_its_kind CHECK (CASE what
        WHEN 'collect' THEN words ~ '^[A-Za-z0-9][A-Za-z0-9._-]{0,63}$'
        WHEN 'release' THEN words ~ '^\d{4}-(0[1-9]|1[0-2])( [A-Za-z0-9][A-Za-z0-9._-]{0,63})?$'
        WHEN 'send' THEN words ~ '^\d{4}-(0[1-9]|1[0-2])$'
        WHEN 'erase' THEN words ~ '^[0-9a-f]{32}$' ELSE false END)
);
CREATE UNIQUE INDEX one_open_job ON jobs (what, words) WHERE ended_at IS NULL;

-- Items of the page: one open row a kind and subject. known_by: who looks after it. facts: what the page words them
-- with. waits: the sheets that wait for the cause. done_at: a person did something about it, and the next office/alarms
-- will see.
CREATE TABLE alarms (
    id bigint GENERATED ALWAYS AS IDENTITY PRIMARY KEY,
    kind text NOT NULL, house text REFERENCES houses, subject text NOT NULL, says text NOT NULL,
    since timestamptz NOT NULL DEFAULT now(), ended_at timestamptz CHECK (ended_at >= since),
    told_at timestamptz, known_by text, note text,
    facts jsonb NOT NULL DEFAULT '{}', waits integer NOT NULL DEFAULT 0, done_at timestamptz, done_by text
);
CREATE UNIQUE INDEX one_open_alarm ON alarms (kind, subject) WHERE ended_at IS NULL;

-- What stands above the items, a row a run of office/alarms. month: the last one that is over; ready, waiting,
-- released: its sheets; of a house with a waiting one all wait.
CREATE TABLE mornings (
    at timestamptz PRIMARY KEY, houses integer NOT NULL, meters integer NOT NULL, read integer NOT NULL,
    month date NOT NULL, ready integer NOT NULL, waiting integer NOT NULL, released integer NOT NULL,
    on_paper integer NOT NULL                   -- of those that are ready
);
