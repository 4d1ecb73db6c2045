--liquibase formatted sql

--changeset ann:1
--comment: Who buys
CREATE TABLE customer (
    id int PRIMARY KEY,
    name varchar(80) NOT NULL,
    since timestamp
);
ALTER TABLE customer ADD CONSTRAINT uq_customer_name UNIQUE (name);
--rollback DROP TABLE customer;

--changeset ann:2
--comment: What is sold
CREATE TABLE product (
    id int PRIMARY KEY,
    title varchar(80) NOT NULL,
    price ${money}
);
--rollback DROP TABLE product;

--changeset ann:3 context:demo
--comment: Rows to try the shop with
INSERT INTO product (id, title, price) VALUES (1, 'A cup', 4.50);
INSERT INTO product (id, title) VALUES (2, 'A gift');
--rollback DELETE FROM product WHERE id = 1 OR id = 2;
