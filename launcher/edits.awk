# The kinds of edits: of each code the name, and of each name the fields in their order, as KEY:KIND. A field of the kind `path`,
# `name`, `flag`, `numbers` or `paths` is that; `2` or `8` is a number of so many bytes.

BEGIN {
  learn(0, "ADD", "path:path replication:2 mtime:8 atime:8 blocksize:8 permission:2 user:name group:name")
  learn(1, "RENAME_OLD", "src:path dst:path time:8")
  learn(2, "DELETE", "path:path time:8")
  learn(3, "MKDIR", "path:path time:8 permission:2 user:name group:name")
  learn(4, "SET_REPLICATION", "path:path replication:2")
  learn(7, "SET_PERMISSIONS", "path:path permission:2")
  learn(8, "SET_OWNER", "path:path user:name group:name")
  learn(9, "CLOSE", "path:path mtime:8 atime:8 lengths:numbers")
  learn(13, "TIMES", "path:path mtime:8 atime:8")
  learn(14, "SET_QUOTA", "path:path nsquota:8 dsquota:8")
  learn(15, "RENAME", "src:path dst:path time:8 overwrite:flag")
  learn(16, "CONCAT_DELETE", "target:path time:8 sources:paths")
  learn(23, "END_LOG_SEGMENT", "")
  learn(24, "START_LOG_SEGMENT", "")
}

function learn(code, name, fields) {
  kind_name[code] = name
  kind_fields[name] = fields
}
