// The constants of the controller: its phases, its events, and the causes of counter changes.

`ifndef CAN_WORDS_VH
`define CAN_WORDS_VH

// levels
`define DOMINANT 1'b0
`define RECESSIVE 1'b1

// phases
`define IDLE 4'd0
`define JOINING 4'd1
`define STUFFED_PART 4'd2
`define CRC_DELIMITER 4'd3
`define ACK_SLOT 4'd4
`define ACK_DELIMITER 4'd5
`define END_OF_FRAME 4'd6
`define ERROR_FLAG 4'd7
`define PASSIVE_FLAG 4'd8
`define OVERLOAD_FLAG 4'd9
`define AFTER_FLAG 4'd10
`define DELIMITER 4'd11
`define INTERMISSION 4'd12
`define SUSPEND 4'd13
`define BUS_OFF 4'd14

// events
`define NOTHING 4'd0
`define SENT 4'd1
`define RECEIVED 4'd2
`define LOST 4'd3
`define BIT_ERROR 4'd4
`define STUFF_ERROR 4'd5
`define CRC_ERROR 4'd6
`define FORM_ERROR 4'd7
`define ACK_ERROR 4'd8
`define OVERLOAD 4'd9
`define WENT_OFF 4'd10
`define RECOVERED 4'd11

// causes of counter changes
`define NO_CAUSE 3'd0
`define RECEIVER_BY_1 3'd1
`define RECEIVER_BY_8 3'd2
`define SENDER_BY_8 3'd3
`define FRAME_SENT 3'd4
`define FRAME_RECEIVED 3'd5
`define CLEARED 3'd6

`endif
