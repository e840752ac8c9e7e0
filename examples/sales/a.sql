CREATE TABLE Sales (SaleId INTEGER NOT NULL DISTKEY ENCODE delta,
  Region CHAR(2) ENCODE bytedict, Amount DECIMAL(8,2), SoldOn DATE,
  PRIMARY KEY (SaleId)) SORTKEY (SoldOn, SaleId);
INSERT INTO sales VALUES (1,'N',19.99,'2024-02-29'), (2,'S',5,'2024-01-31'),
  (3,NULL,NULL,'2024-02-29');
SELECT region, amount FROM sales WHERE soldon = '2024-02-29';
