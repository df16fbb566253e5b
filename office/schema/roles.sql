-- The roles of the office, which belong to the whole server: made once, by who may make roles there (the package:
-- postgres), so that the owner of the database needn't. office/migrate runs it, and it does nothing where they are
-- there. reader: looks. clerk: puts orders, factors, users. publisher: a clerk who also releases months. collector:
-- readings and orders of boxes. closer: days and months of readings, alarms. desk: the page's login, which may do
-- nothing by itself but become one of the first three.
DO $$
DECLARE
    of_role text;
    pair text[];
BEGIN
    FOREACH of_role IN ARRAY ARRAY['reader', 'clerk', 'publisher', 'collector', 'closer', 'desk'] LOOP
        IF NOT EXISTS (SELECT FROM pg_roles WHERE rolname = of_role) THEN
            EXECUTE format('CREATE ROLE %I NOLOGIN', of_role);
        END IF;
    END LOOP;
    IF (SELECT rolinherit FROM pg_roles WHERE rolname = 'desk') THEN
        ALTER ROLE desk NOINHERIT;
    END IF;
    FOREACH pair SLICE 1 IN ARRAY ARRAY[['clerk', 'publisher'], ['reader', 'closer'], ['reader', 'desk'],
                                        ['publisher', 'desk']] LOOP
        IF NOT pg_has_role(pair[2], pair[1], 'MEMBER') THEN
            EXECUTE format('GRANT %I TO %I', pair[1], pair[2]);
        END IF;
    END LOOP;
END $$;
