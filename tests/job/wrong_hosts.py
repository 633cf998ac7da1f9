# Hosts with one thing wrong, each an edit of the host's text, and which runs must notice it: `kills`, lost `power`, the order of the calls
# (`calls`), a run without accidents (`plain`), or one in which the operator cancels a job (`asks`).
SEND_NEXT = """  append(r, j, KATCHIDUL_RECORD_SENT, page);
  r->queue = turn.queue;
  return send_page(r, j, page);
"""

WRONG_HOSTS = [
    ("a page before its record", {"kills", "calls"}, "room.c", SEND_NEXT, """\
  course gone = send_page(r, j, page);
  append(r, j, KATCHIDUL_RECORD_SENT, page);
  r->queue = turn.queue;
  return gone;
"""),
    ("nothing flushed", {"power", "calls"}, "disk.c", "file < 0 || TEMP_FAILURE_RETRY(fsync(file)) != 0", "file < 0"),
    ("the log not flushed", {"power", "calls"}, "disk.c", "  flush_and_close(file, UNFINISHED);\n", "  close(file);\n"),
    ("the log's folder not flushed", {"power", "calls"}, "disk.c", "stop_at(meant.text);\n  flush_folder(spool, folder);\n",
     "stop_at(meant.text);\n"),
    ("the order's folder not flushed", {"calls"}, "spool.c", '  flush_folder(spool, "jobs");\n', ""),
    ("the order not flushed", {"calls"}, "intake.c", "name).text, true, o->bytes", "name).text, false, o->bytes"),
    ("each job whole", {"plain"}, "room.c", "  job *j = room_find(r, turn.id);\n", """\
  job *j = NULL;
  for (uint32_t id = 1; j == NULL || job_log(j).sent == pages_of(&j->order); id++) j = room_find(r, id);
"""),
    ("the whole job's dots told", {"plain"}, "room.c", "dots_through(&j->order, finished)", "dots_through(&j->order, pages)"),
    ("pages told before they are punched", {"plain"}, "room.c", "say_progress(r, j, log.finished);", "say_progress(r, j, log.sent);"),
    ("the log written in its place", {"kills"}, "disk.c", '#define UNFINISHED ".new"', "#define UNFINISHED meant.text"),
    ("the embosser not asked", {"kills"}, "intake.c", "job_restart(r->spool, j, count)", "job_restart(r->spool, j, job_log(j).finished)"),
    ("open pages not sent again", {"kills"}, "intake.c", "uint32_t page = now.finished + 1;", "uint32_t page = now.sent + 1;"),
    ("a job stopped without its count", {"asks"}, "asks.c", "course c = hear_count(r, id, &count);",
     "course c = GOES_ON; count = job_log(j).finished;"),
    ("an order copied, not moved", {"kills"}, "spool.c", '  int why = move_lasting(spool, "in", name, folder.text, "order");\n', """\
  char bytes[KATCHIDUL_ORDER_MAX];
  size_t length;
  int why = read_file(spool, path_of("in/%s", name).text, true, bytes, sizeof bytes, &length);
  write_lasting(spool, folder.text, "order", bytes, length);
  remove_lasting(spool, "in", name);
"""),
]
