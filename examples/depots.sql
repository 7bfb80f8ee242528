-- A patch that is offered, refused twice and then accepted, on each bus of a year's logs, to be
-- counted by depot and month:
--   mireladle-match --depots depot,month examples/depots.sql examples/depots.csv
-- The numbers of the depots are those of the table; 64 is none of them.
depot: North=0, South=1, *=64
event: offered=1, refused=2, accepted=3, *=0

PARTITION BY bus
ORDER BY time
AFTER MATCH SKIP PAST LAST ROW
PATTERN (O R{2} C)
DEFINE
  O AS event = 'offered',
  R AS event = 'refused' AND base = PREV(base) AND patch = PREV(patch),
  C AS event = 'accepted' AND base = PREV(base) AND patch = PREV(patch)
