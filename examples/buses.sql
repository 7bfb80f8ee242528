-- A patch that is offered, refused twice and then accepted, on each bus, in SQL's spelling. Events
-- are words in the file: the line below gives each a number, and 0 to all others.
event: offered=1, refused=2, accepted=3, *=0

PARTITION BY bus
ORDER BY time
MEASURES FIRST(O.time) AS offered, LAST(C.time) AS accepted, COUNT(R) AS refusals
AFTER MATCH SKIP PAST LAST ROW
PATTERN (O R{2} C)
DEFINE
  O AS event = 'offered',
  R AS event = 'refused' AND base = PREV(base) AND patch = PREV(patch),
  C AS event = 'accepted' AND base = PREV(base) AND patch = PREV(patch)
