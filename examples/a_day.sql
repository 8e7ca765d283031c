BEGIN TRANSACTION;
CREATE TABLE cases (
  number INTEGER NOT NULL PRIMARY KEY CHECK (number BETWEEN 1 AND 4096),
  filed DATE NOT NULL
);
CREATE TABLE deadlines (
  case_number INTEGER NOT NULL REFERENCES cases (number),
  number INTEGER NOT NULL,
  term VARCHAR(80) NOT NULL,
  event_day DATE NOT NULL,
  event_time TIME,
  second_day DATE,
  service CHAR(1) CHECK (service IN ('A', 'B', 'C', 'D', 'E', 'F')),
  last_day DATE,
  ends_at TIMESTAMP WITH TIME ZONE,
  due_day DATE,
  due_time TIME,
  filed_day DATE,
  filed_time TIME,
  on_paper BOOLEAN,
  timely BOOLEAN,
  PRIMARY KEY (case_number, number),
  CHECK (last_day IS NULL OR ends_at IS NULL),
  CHECK (timely IS NULL OR filed_day IS NOT NULL)
);
CREATE TABLE grants (
  case_number INTEGER NOT NULL,
  deadline_number INTEGER NOT NULL,
  number INTEGER NOT NULL,
  days INTEGER,
  hours INTEGER,
  until_day DATE,
  PRIMARY KEY (case_number, deadline_number, number),
  FOREIGN KEY (case_number, deadline_number) REFERENCES deadlines (case_number, number)
);
CREATE TABLE resets (
  case_number INTEGER NOT NULL,
  deadline_number INTEGER NOT NULL,
  number INTEGER NOT NULL,
  reset_day DATE NOT NULL,
  reset_time TIME,
  PRIMARY KEY (case_number, deadline_number, number),
  FOREIGN KEY (case_number, deadline_number) REFERENCES deadlines (case_number, number)
);
CREATE TABLE motions (
  case_number INTEGER NOT NULL REFERENCES cases (number),
  number INTEGER NOT NULL,
  served DATE NOT NULL,
  notice_days INTEGER,
  PRIMARY KEY (case_number, number)
);
CREATE TABLE hearings (
  case_number INTEGER NOT NULL,
  motion_number INTEGER NOT NULL,
  room VARCHAR(128) NOT NULL,
  hearing_day DATE NOT NULL,
  begins TIME NOT NULL,
  minutes INTEGER NOT NULL CHECK (minutes > 0),
  starts_at TIMESTAMP WITH TIME ZONE,
  ends_at TIMESTAMP WITH TIME ZONE,
  notice_day DATE NOT NULL,
  affidavits_day DATE,
  PRIMARY KEY (case_number, motion_number),
  FOREIGN KEY (case_number, motion_number) REFERENCES motions (case_number, number),
  UNIQUE (room, hearing_day, begins)
);
CREATE TABLE panels (
  case_number INTEGER NOT NULL,
  motion_number INTEGER NOT NULL,
  place INTEGER NOT NULL,
  judge VARCHAR(128) NOT NULL,
  PRIMARY KEY (case_number, motion_number, place),
  UNIQUE (case_number, motion_number, judge),
  FOREIGN KEY (case_number, motion_number) REFERENCES hearings (case_number, motion_number)
);
CREATE TABLE outages (
  number INTEGER NOT NULL PRIMARY KEY,
  outage_day DATE NOT NULL,
  begins TIME NOT NULL,
  ends TIME NOT NULL
);
CREATE TABLE answers (
  number INTEGER NOT NULL PRIMARY KEY,
  clerk INTEGER NOT NULL,
  refusal INTEGER CHECK (refusal BETWEEN 1 AND 29),
  answer VARCHAR(1000000) NOT NULL
);
INSERT INTO answers VALUES (1, 1, NULL, 'opened');
INSERT INTO answers VALUES (2, 1, NULL, 'deadline 1 last 2025-10-30');
INSERT INTO answers VALUES (3, 1, NULL, 'filed timely');
INSERT INTO answers VALUES (4, 1, NULL, 'deadline 2 last 2025-09-02');
INSERT INTO answers VALUES (5, 1, NULL, 'deadline 3 last 2025-09-18');
INSERT INTO answers VALUES (6, 1, NULL, 'extended last 2025-09-16');
INSERT INTO answers VALUES (7, 1, NULL, 'opened');
INSERT INTO answers VALUES (8, 1, NULL, 'deadline 1 last 2025-09-17');
INSERT INTO answers VALUES (9, 1, 10, 'refused 10 NotExtendable');
INSERT INTO answers VALUES (10, 1, NULL, 'motion 1');
INSERT INTO answers VALUES (11, 1, 19, 'refused 19 ShortNotice 2025-08-29');
INSERT INTO answers VALUES (12, 1, NULL, 'booked');
INSERT INTO answers VALUES (13, 1, NULL, 'motion 1');
INSERT INTO answers VALUES (14, 1, 20, 'refused 20 JudgeBusy 1 1');
INSERT INTO answers VALUES (15, 1, NULL, 'booked');
INSERT INTO answers VALUES (16, 1, NULL, 'calendar
2025-09-15 10:00 2 case 1 motion 1 room 11A
2025-09-15 11:00 3q case 2 motion 1 room 11B');
INSERT INTO answers VALUES (17, 1, NULL, 'moved');
INSERT INTO answers VALUES (18, 1, NULL, 'last 2025-09-02');
INSERT INTO answers VALUES (19, 1, 23, 'refused 23 HearingThatDay 1 1');
INSERT INTO answers VALUES (20, 1, NULL, 'holiday entered');
INSERT INTO answers VALUES (21, 1, NULL, 'last 2025-09-03');
INSERT INTO answers VALUES (22, 1, NULL, 'outage entered');
INSERT INTO answers VALUES (23, 1, NULL, 'filed timely');
INSERT INTO answers VALUES (24, 1, NULL, 'filed late');
INSERT INTO answers VALUES (25, 1, 13, 'refused 13 LateWithoutNeglect');
INSERT INTO answers VALUES (26, 1, NULL, 'cancelled');
INSERT INTO answers VALUES (27, 1, 16, 'refused 16 NotSet');
INSERT INTO answers VALUES (28, 1, NULL, 'sheet
case 1 filed 2025-08-01
deadline 1 4m last 2025-10-30 timely 2025-08-11 14:20 paper
deadline 2 12a1Ai last 2025-09-17 pending
deadline 3 12a1B last 2025-09-18 late 2025-09-19 09:05 electronic
motion 1 served 2025-08-27 need 14
hearing 2025-09-16 10:00 2 Calloway 11A notice 2025-08-29 affidavits 2025-09-09');
INSERT INTO outages VALUES (1, '2025-09-17', '13:00:00', '17:00:00');
INSERT INTO cases VALUES (1, '2025-08-01');
INSERT INTO deadlines VALUES (1, 1, '4m', '2025-08-01', NULL, NULL, NULL, '2025-10-30', NULL, '2025-10-30', NULL, '2025-08-11', '14:20:00', TRUE, TRUE);
INSERT INTO deadlines VALUES (1, 2, '12a1Ai', '2025-08-11', NULL, NULL, NULL, '2025-09-17', NULL, '2025-09-17', NULL, NULL, NULL, NULL, NULL);
INSERT INTO grants VALUES (1, 2, 1, 14, NULL, NULL);
INSERT INTO deadlines VALUES (1, 3, '12a1B', '2025-08-25', NULL, NULL, 'C', '2025-09-18', NULL, '2025-09-18', NULL, '2025-09-19', '09:05:00', FALSE, FALSE);
INSERT INTO motions VALUES (1, 1, '2025-08-27', 14);
INSERT INTO hearings VALUES (1, 1, '11A', '2025-09-16', '10:00:00', 60, '2025-09-16 14:00:00+00:00', '2025-09-16 15:00:00+00:00', '2025-08-29', '2025-09-09');
INSERT INTO panels VALUES (1, 1, 1, 'Calloway');
INSERT INTO cases VALUES (2, '2025-02-10');
INSERT INTO deadlines VALUES (2, 1, '59e', '2025-08-20', NULL, NULL, NULL, '2025-09-18', NULL, '2025-09-18', NULL, '2025-09-18', '16:30:00', FALSE, TRUE);
INSERT INTO motions VALUES (2, 1, '2025-08-20', NULL);
COMMIT;
