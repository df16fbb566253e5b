-- The logins of the package's system users (peer authentication), each with the one thing that its programs do.
-- postgres runs it at each installation. None may make roles: who may, in PostgreSQL 15, takes any role but a
-- superuser's, and runs programs as postgres.
DO $$
DECLARE
    pair text[];
BEGIN
    FOREACH pair SLICE 1 IN ARRAY ARRAY[['mbdc-billing', ''], ['mbdc-collect', 'collector'], ['mbdc-close', 'closer'],
                                        ['mbdc-publish', 'closer'], ['mbdc-publish', 'publisher'],
                                        ['mbdc-desk', 'desk']] LOOP
        IF NOT EXISTS (SELECT FROM pg_roles WHERE rolname = pair[1]) THEN
            EXECUTE format('CREATE ROLE %I LOGIN', pair[1]);
        END IF;
        EXECUTE format('ALTER ROLE %I NOSUPERUSER NOCREATEROLE NOCREATEDB NOREPLICATION NOBYPASSRLS', pair[1]);
        IF pair[2] <> '' AND NOT pg_has_role(pair[1], pair[2], 'MEMBER') THEN
            EXECUTE format('GRANT %I TO %I', pair[2], pair[1]);
        END IF;
    END LOOP;
END $$;
