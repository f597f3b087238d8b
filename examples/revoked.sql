CREATE TABLE revoked (serial TEXT, reason TEXT, day BIGINT, PRIMARY KEY (serial));
COMMIT;
INSERT INTO revoked VALUES ('04a1f2', 'key compromise', 20780);
INSERT INTO revoked VALUES ('04a2c7', 'superseded', 20781);
COMMIT;
INSERT INTO revoked VALUES ('0398d0', 'cessation of operation', 20795);
COMMIT;
