-- A name in double quotes may be a reserved word, and is folded as every name is.
CREATE TABLE "Order" ("from" INT, "TO" INT, n INT);
INSERT INTO "order" VALUES (1, 2, 3), (4, 5, 6);
SELECT "From", "to", "N" FROM "ORDER" WHERE "from" > 1;
