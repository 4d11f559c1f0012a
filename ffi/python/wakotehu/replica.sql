-- The tables of a replicated history, and the roles of those who use them. `wakotehu-replica init` runs this; it may be run
-- again: tables of format 1 are brought to format 2, and nothing else changes. No role but the owner's changes or deletes a row.

CREATE SCHEMA IF NOT EXISTS wakotehu;

-- One row: from which heights the soft forks are in force, and the valid signatures, or that they are verified as scripts ask for them.
CREATE TABLE IF NOT EXISTS wakotehu.setting (
    one boolean PRIMARY KEY DEFAULT true CHECK (one),
    format integer NOT NULL,
    heights bigint[] NOT NULL,
    signatures bytea NOT NULL,
    by_need boolean NOT NULL
);

-- The log: the commands in their order, by places from 1 on. `bytes` is a block, or the id of one that is marked. `chain` is a
-- hash of the row and of the row before it.
CREATE TABLE IF NOT EXISTS wakotehu.commands (
    place bigint PRIMARY KEY CHECK (place > 0),
    token uuid NOT NULL,
    seat text NOT NULL,
    command text NOT NULL,
    bytes bytea NOT NULL,
    now bigint,
    chain bytea
);
ALTER TABLE wakotehu.commands ADD COLUMN IF NOT EXISTS chain bytea;
-- Blocks don't compress.
ALTER TABLE wakotehu.commands ALTER COLUMN bytes SET STORAGE EXTERNAL;

-- What the first replica that took a command replied, and the verdicts on signatures for which the command asked.
CREATE TABLE IF NOT EXISTS wakotehu.replies (
    place bigint PRIMARY KEY CHECK (place > 0),
    reply text NOT NULL,
    verdicts text NOT NULL,
    replica text NOT NULL
);

-- Replies that differ from the written one. It is empty, or replicas have stopped.
CREATE TABLE IF NOT EXISTS wakotehu.differences (
    place bigint NOT NULL,
    replica text NOT NULL,
    reply text NOT NULL,
    PRIMARY KEY (place, replica)
);

-- Whether a row is a command: what a node takes.
CREATE OR REPLACE FUNCTION wakotehu.is_command(seat text, command text, bytes bytea, now bigint) RETURNS boolean
LANGUAGE sql IMMUTABLE PARALLEL SAFE SET search_path = pg_catalog AS $$
    SELECT seat ~ '^[A-Za-z0-9_]{1,32}$' AND CASE
        WHEN command = 'submit' THEN octet_length(bytes) <= 33554432 AND now IS NOT NULL AND now >= 0
        ELSE command IN ('invalidate', 'reconsider', 'precious') AND octet_length(bytes) = 32 AND now IS NULL END
$$;

-- SHA-256 of the hash of the row before, or of nothing, and this row: numbers in eight bytes, the highest first; a text's length
-- in four bytes before it; no moment as -1.
CREATE OR REPLACE FUNCTION wakotehu.chained(
    before bytea, place bigint, token uuid, seat text, command text, bytes bytea, now bigint
) RETURNS bytea LANGUAGE sql IMMUTABLE PARALLEL SAFE SET search_path = pg_catalog AS $$
    SELECT sha256(
        before || int8send(place) || uuid_send(token) || int4send(octet_length(seat)) || convert_to(seat, 'UTF8')
        || int4send(octet_length(command)) || convert_to(command, 'UTF8') || int8send(coalesce(now, -1)) || bytes)
$$;

-- A row comes behind the last one, and is chained to it.
CREATE OR REPLACE FUNCTION wakotehu.chain_row() RETURNS trigger LANGUAGE plpgsql SET search_path = pg_catalog AS $$
DECLARE
    before bytea := '';
BEGIN
    IF NEW.place > 1 THEN
        SELECT chain INTO before FROM wakotehu.commands WHERE place = NEW.place - 1;
        IF NOT FOUND THEN
            RAISE EXCEPTION 'place % has no place before it', NEW.place USING ERRCODE = 'check_violation';
        END IF;
    END IF;
    NEW.chain := wakotehu.chained(before, NEW.place, NEW.token, NEW.seat, NEW.command, NEW.bytes, NEW.now);
    RETURN NEW;
END $$;

DO $$
DECLARE
    own record;
    last bytea := '';
BEGIN
    IF EXISTS (SELECT FROM pg_trigger WHERE tgname = 'chain_row' AND tgrelid = 'wakotehu.commands'::regclass) THEN
        RETURN;
    END IF;
    LOCK TABLE wakotehu.commands, wakotehu.replies;
    FOR own IN SELECT * FROM wakotehu.commands ORDER BY place LOOP
        IF wakotehu.is_command(own.seat, own.command, own.bytes, own.now) IS NOT TRUE THEN
            RAISE EXCEPTION 'place % is no command', own.place USING ERRCODE = 'check_violation';
        END IF;
        last := wakotehu.chained(last, own.place, own.token, own.seat, own.command, own.bytes, own.now);
        UPDATE wakotehu.commands SET chain = last WHERE place = own.place;
    END LOOP;
    ALTER TABLE wakotehu.commands ALTER COLUMN chain SET NOT NULL,
        ADD CONSTRAINT is_command CHECK (wakotehu.is_command(seat, command, bytes, now));
    ALTER TABLE wakotehu.replies ADD CONSTRAINT is_reply CHECK (
        reply ~ '^[A-Za-z0-9-]+(?: [0-9]+:[0-9]+)?$' AND verdicts ~ '^(?:(?:in)?valid (?:[0-9a-f]+|-) (?:[0-9a-f]+|-) [0-9a-f]{64}(?:\n|$))*$');
    CREATE TRIGGER chain_row BEFORE INSERT ON wakotehu.commands FOR EACH ROW EXECUTE FUNCTION wakotehu.chain_row();
    UPDATE wakotehu.setting SET format = 2 WHERE format = 1;
END $$;

DO $$
BEGIN
    IF NOT EXISTS (SELECT FROM pg_roles WHERE rolname = 'wakotehu_follower') THEN
        CREATE ROLE wakotehu_follower NOLOGIN;
    END IF;
    IF NOT EXISTS (SELECT FROM pg_roles WHERE rolname = 'wakotehu_writer') THEN
        CREATE ROLE wakotehu_writer NOLOGIN;
    END IF;
END $$;

GRANT USAGE ON SCHEMA wakotehu TO wakotehu_follower, wakotehu_writer;
GRANT SELECT ON ALL TABLES IN SCHEMA wakotehu TO wakotehu_follower, wakotehu_writer;
GRANT INSERT ON wakotehu.commands, wakotehu.replies, wakotehu.differences TO wakotehu_writer;
