import java.math.BigInteger;
import java.util.Date;
import java.util.HexFormat;
import org.bouncycastle.asn1.ASN1Encodable;
import org.bouncycastle.asn1.ASN1GeneralizedTime;
import org.bouncycastle.asn1.ASN1Integer;
import org.bouncycastle.asn1.ASN1ObjectIdentifier;
import org.bouncycastle.asn1.DERBitString;
import org.bouncycastle.asn1.DERNull;
import org.bouncycastle.asn1.DERSequence;
import org.bouncycastle.asn1.DERSet;
import org.bouncycastle.asn1.cmp.CMPCertificate;
import org.bouncycastle.asn1.cmp.CertConfirmContent;
import org.bouncycastle.asn1.cmp.CertOrEncCert;
import org.bouncycastle.asn1.cmp.CertRepMessage;
import org.bouncycastle.asn1.cmp.CertResponse;
import org.bouncycastle.asn1.cmp.CertStatus;
import org.bouncycastle.asn1.cmp.CertifiedKeyPair;
import org.bouncycastle.asn1.cmp.ErrorMsgContent;
import org.bouncycastle.asn1.cmp.GenMsgContent;
import org.bouncycastle.asn1.cmp.GenRepContent;
import org.bouncycastle.asn1.cmp.InfoTypeAndValue;
import org.bouncycastle.asn1.cmp.PKIBody;
import org.bouncycastle.asn1.cmp.PKIConfirmContent;
import org.bouncycastle.asn1.cmp.PKIFailureInfo;
import org.bouncycastle.asn1.cmp.PKIFreeText;
import org.bouncycastle.asn1.cmp.PKIHeader;
import org.bouncycastle.asn1.cmp.PKIHeaderBuilder;
import org.bouncycastle.asn1.cmp.PKIMessage;
import org.bouncycastle.asn1.cmp.PKIMessages;
import org.bouncycastle.asn1.cmp.PKIStatus;
import org.bouncycastle.asn1.cmp.PKIStatusInfo;
import org.bouncycastle.asn1.cmp.PollRepContent;
import org.bouncycastle.asn1.cmp.PollReqContent;
import org.bouncycastle.asn1.cmp.RevAnnContent;
import org.bouncycastle.asn1.cmp.RevDetails;
import org.bouncycastle.asn1.cmp.RevRepContentBuilder;
import org.bouncycastle.asn1.cmp.RevReqContent;
import org.bouncycastle.asn1.crmf.CertId;
import org.bouncycastle.asn1.crmf.CertReqMessages;
import org.bouncycastle.asn1.crmf.CertReqMsg;
import org.bouncycastle.asn1.crmf.CertRequest;
import org.bouncycastle.asn1.crmf.CertTemplateBuilder;
import org.bouncycastle.asn1.crmf.POPOSigningKey;
import org.bouncycastle.asn1.crmf.ProofOfPossession;
import org.bouncycastle.asn1.pkcs.CertificationRequest;
import org.bouncycastle.asn1.pkcs.CertificationRequestInfo;
import org.bouncycastle.asn1.x500.X500Name;
import org.bouncycastle.asn1.x509.AlgorithmIdentifier;
import org.bouncycastle.asn1.x509.Certificate;
import org.bouncycastle.asn1.x509.GeneralName;
import org.bouncycastle.asn1.x509.SubjectPublicKeyInfo;
import org.bouncycastle.asn1.x509.Time;
import org.bouncycastle.asn1.x509.V3TBSCertificateGenerator;

/** Prints a CMP message of each body that Bouncy Castle writes: header, body and the whole message. Keys and signatures count up. */
public final class MessageVectors {
    private static final AlgorithmIdentifier HSS_LMS = new AlgorithmIdentifier(new ASN1ObjectIdentifier("1.2.840.113549.1.9.16.3.17"));
    private static final X500Name DEVICE = new X500Name("CN=device-1");
    private static final PKIHeader HEADER = header();

    public static void main(String[] words) throws Exception {
        System.out.println("# Bouncy Castle " + PKIMessage.class.getPackage().getImplementationVersion());
        byte[] tag = run(0x70, 32);
        CertReqMessages requests = requests();
        show("ir", new PKIMessage(HEADER, new PKIBody(PKIBody.TYPE_INIT_REQ, requests), new DERBitString(tag)));
        show("cr", plain(PKIBody.TYPE_CERT_REQ, requests));
        show("kur", plain(PKIBody.TYPE_KEY_UPDATE_REQ, requests));
        CMPCertificate certificate = certificate();
        PKIStatusInfo rejected = new PKIStatusInfo(PKIStatus.rejection, new PKIFreeText("denied"), new PKIFailureInfo(PKIFailureInfo.badPOP));
        CertResponse granted = new CertResponse(new ASN1Integer(0), new PKIStatusInfo(PKIStatus.granted),
                new CertifiedKeyPair(new CertOrEncCert(certificate)), null);
        show("ip", plain(PKIBody.TYPE_INIT_REP, new CertRepMessage(null, new CertResponse[] {granted})));
        CertRepMessage refusal = new CertRepMessage(null, new CertResponse[] {new CertResponse(new ASN1Integer(0), rejected)});
        show("cp", plain(PKIBody.TYPE_CERT_REP, refusal));
        show("kup", plain(PKIBody.TYPE_KEY_UPDATE_REP, refusal));
        show("p10cr", plain(PKIBody.TYPE_P10_CERT_REQ,
                new CertificationRequest(new CertificationRequestInfo(DEVICE, key(), new DERSet()), HSS_LMS, new DERBitString(run(0x30, 8)))));
        show("rr", plain(PKIBody.TYPE_REVOCATION_REQ, new RevReqContent(new RevDetails(
                new CertTemplateBuilder().setIssuer(DEVICE).setSerialNumber(new ASN1Integer(3)).build()))));
        show("rp", plain(PKIBody.TYPE_REVOCATION_REP, new RevRepContentBuilder().add(rejected).build()));
        show("rann", plain(PKIBody.TYPE_REVOCATION_ANN, RevAnnContent.getInstance(new DERSequence(new ASN1Encodable[] {
            PKIStatus.revocationNotification, new CertId(new GeneralName(DEVICE), BigInteger.TWO),
            new ASN1GeneralizedTime("20231114221320Z"), new ASN1GeneralizedTime("20231114221320Z")}))));
        show("pkiconf", new PKIMessage(HEADER, new PKIBody(PKIBody.TYPE_CONFIRM, new PKIConfirmContent()), new DERBitString(tag),
                new CMPCertificate[] {certificate}));
        PKIMessage inner = plain(PKIBody.TYPE_CONFIRM, new PKIConfirmContent());
        show("nested", plain(PKIBody.TYPE_NESTED, new PKIMessages(inner)));
        InfoTypeAndValue caCerts = new InfoTypeAndValue(new ASN1ObjectIdentifier("1.3.6.1.5.5.7.4.17"));
        show("genm", plain(PKIBody.TYPE_GEN_MSG, new GenMsgContent(caCerts)));
        show("genp", plain(PKIBody.TYPE_GEN_REP,
                new GenRepContent(new InfoTypeAndValue(new ASN1ObjectIdentifier("1.3.6.1.5.5.7.4.17"), new DERSequence()))));
        show("error", plain(PKIBody.TYPE_ERROR, new ErrorMsgContent(rejected, new ASN1Integer(17), new PKIFreeText("details"))));
        show("certConf", plain(PKIBody.TYPE_CERT_CONFIRM, CertConfirmContent.getInstance(new DERSequence(
                new CertStatus(run(0x10, 32), BigInteger.ZERO, new PKIStatusInfo(PKIStatus.granted))))));
        show("pollReq", plain(PKIBody.TYPE_POLL_REQ, new PollReqContent(new ASN1Integer(-1))));
        show("pollRep", plain(PKIBody.TYPE_POLL_REP, new PollRepContent(new ASN1Integer(0), new ASN1Integer(60))));
    }

    private static PKIHeader header() {
        return new PKIHeaderBuilder(2, new GeneralName(DEVICE), new GeneralName(new X500Name("CN=Fleet CA"))).setTransactionID(run(0x20, 16)).build();
    }

    private static PKIMessage plain(int type, ASN1Encodable content) {
        return new PKIMessage(HEADER, new PKIBody(type, content));
    }

    private static CertReqMessages requests() throws Exception {
        CertRequest request = new CertRequest(0, new CertTemplateBuilder().setSubject(DEVICE).setPublicKey(key()).build(), null);
        return new CertReqMessages(new CertReqMsg(request, new ProofOfPossession(new POPOSigningKey(null, HSS_LMS, new DERBitString(run(0x30, 8)))), null));
    }

    private static SubjectPublicKeyInfo key() throws Exception {
        return new SubjectPublicKeyInfo(HSS_LMS, run(0x40, 16));
    }

    private static CMPCertificate certificate() throws Exception {
        V3TBSCertificateGenerator plan = new V3TBSCertificateGenerator();
        plan.setSerialNumber(new ASN1Integer(5));
        plan.setSignature(HSS_LMS);
        plan.setIssuer(DEVICE);
        plan.setSubject(DEVICE);
        plan.setStartDate(new Time(new Date(1_700_000_000_000L)));
        plan.setEndDate(new Time(new Date(1_800_000_000_000L)));
        plan.setSubjectPublicKeyInfo(key());
        return new CMPCertificate(Certificate.getInstance(
                new DERSequence(new ASN1Encodable[] {plan.generateTBSCertificate(), HSS_LMS, new DERBitString(run(0x50, 8))})));
    }

    private static byte[] run(int first, int count) {
        byte[] octets = new byte[count];
        for (int i = 0; i < count; i++) {
            octets[i] = (byte) (first + i);
        }
        return octets;
    }

    private static String hex(byte[] octets) {
        return HexFormat.of().formatHex(octets);
    }

    private static void show(String name, PKIMessage message) throws Exception {
        System.out.println(name + " body: " + hex(message.getBody().getEncoded("DER")));
        System.out.println(name + ": " + hex(message.getEncoded("DER")));
    }
}
