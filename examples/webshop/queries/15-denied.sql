select oid from Purchase join Parcel using (oid) where state = 'open';
