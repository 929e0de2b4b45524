select aid, street from Address;
