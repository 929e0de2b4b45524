select cid, name, country from Customer;
