file a
